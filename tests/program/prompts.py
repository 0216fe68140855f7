"""The player's own commands: what is answered, and that what a story prints is what it prints without them, by the sample game's stored text."""
import os

from fronts import DATA, GAME, LINES, TEXT, TURNS, on_terminal, read
from many import room
from program import Answer

HELP = b"[/undo takes the last line back, /quit ends play, /help tells this]\n\n>"
UNDONE = b"[undone]\n\n>"
NOTHING = b"[nothing to undo]\n\n>"
NO_SUCH = b"[no such command: /help tells which there are]\n\n>"
NO_INPUT = b"end: no input\n"


def see_prompts(program, count):
    see_answers(program, count)
    see_stories(program, count)
    see_kept_commands(program, count)


def told(program, typed, *words):
    """What a play answers to such lines."""
    return program.run(["play", *words, "g"], {"g": GAME}, typed=typed)


def behind(program, typed):
    """What the game prints behind its first prompt."""
    return told(program, typed).output.removeprefix(TURNS[0])


def see_answers(program, count):
    look, carried, took = behind(program, b"look\n"), behind(program, b"inventory\n"), behind(program, b"take hook\n")
    none, many = b"", b"look\n" * 101
    for name, typed, shown in [
        ("help", b"/help\n", HELP),
        ("no such command", b"/save x\n/\n/Undo\n/undo \n", NO_SUCH * 4),
        ("undo at the first prompt", b"/undo\nlook\n", NOTHING + look),
        ("undo", b"take hook\n/undo\ninventory\n", took + UNDONE + carried),
        ("undo twice and once more", b"look\ntake hook\n/undo\n/undo\n/undo\n", look + took + UNDONE * 2 + NOTHING),
        ("undo behind a command", b"look\n/help\n/undo\n/undo\n", look + HELP + UNDONE + NOTHING),
        ("undo of an empty line", b"\n/undo\n/undo\n", behind(program, b"\n") + UNDONE + NOTHING),
        ("undo as far as is kept", many + b"/undo\n" * 101, look * 101 + UNDONE * 100 + NOTHING),
        ("nothing", none, none),
    ]:
        count.is_answer(f"commands: {name}", told(program, typed, "--commands"), Answer(0, TURNS[0] + shown, NO_INPUT))
    count.is_answer("commands: quit", told(program, b"look\n/quit\nlook\n", "--commands"), Answer(0, TURNS[0] + look, b""))
    count.is_answer("commands: a budget", told(program, b"look\n", "--commands", "--budget", "0"), Answer(0, b"", b"end: budget\n"))


def see_stories(program, count):
    """A story prints what it prints, and sees a `/` where commands aren't asked for."""
    files = {"g.z3": GAME, "g.cert": read(DATA, "bell.cert"), "h": GAME}
    for words in (["g.z3"], ["h"], ["h", "g.cert"]):
        count.is_answer(f"the game with commands, {words}", program.run(["play", "--commands", *words], files, typed=LINES), Answer(0, TEXT, b""))
    for words in ([], ["--lenient", "--commands"]):
        answer = told(program, b"/undo\n/quit\n", *words)
        count.see(b"[" not in answer.output.removeprefix(TURNS[0]) and answer.errors == NO_INPUT, f"a slash for the story with {words}: {answer}")
    refused = program.run(["play", "--commands", "g.z3", "bad"], {"g.z3": GAME, "bad": b"no certificate"})
    count.see(refused == program.run(["play", "g.z3", "bad"], {"g.z3": GAME, "bad": b"no certificate"}), f"a bad certificate: {refused}")
    with room({"g": GAME, "mine": b"mine"}) as folder:
        count.is_answer("saves over something else", program.run_in(folder, ["play", "--commands", "--save", "mine", "g"]), Answer(1, b"", b"refused: N2\n"))
        count.is_answer("no story", program.run_in(folder, ["play", "--commands", "none"]), Answer(4, b"", b"failed: file\n"))


def see_kept_commands(program, count):
    """Commands are recorded as lines, and done again; on a terminal they needn't be asked for."""
    typed = b"take hook\n/undo\ninventory\n/quit\n"
    with room({"g": GAME}) as folder:
        first = program.run_in(folder, ["play", "--commands", "--record", "lines", "g"], typed=typed)
        count.see(read(folder, "lines") == typed, f"commands that are recorded: {read(folder, 'lines')!r}")
        count.is_answer("commands done again", program.run_in(folder, ["play", "--commands", "--replay", "lines", "g"]), first)
    with room({"g.z3": GAME}) as folder:
        shown = on_terminal(program, folder, ["play", "g.z3"], None, [b"/help\n"])
        count.see(b"/undo takes the last line back" in shown, f"help on a terminal: {shown!r}")
        shown = on_terminal(program, folder, ["play", "--plain", "g.z3"], None, [b"/help\n"])
        count.see(b"/undo takes" not in shown, f"help on a plain terminal: {shown!r}")
        count.see(os.listdir(folder) == ["g.z3"], f"commands keep files: {os.listdir(folder)}")
