"""The front of a play: text that is wrapped, the files of text and lines, a seed that is drawn, and what a terminal is given without a flag.
How the sample game's text is wrapped is worked out here, of the text that is stored, after docs/PLAYERS.md."""
import os
import pty
import re
import select
import subprocess
import time

from many import room
from program import Answer

HERE = os.path.dirname(os.path.abspath(__file__))
DATA = os.path.join(HERE, "..", "..", "crates", "zpc", "data")
SPACE, END = 32, 10


def read(*path):
    with open(os.path.join(*path), "rb") as file:
        return file.read()


GAME = read(DATA, "bell.z3")
LINES = read(HERE, "bell.txt")
TEXT = re.sub(rb"(?<=\n>)\[[^\n]*\]\n", b"", read(HERE, "bell.out"))
TURNS = re.split(rb"(?<=\n>)", TEXT)
STATUS = [re.fullmatch(rb"\[(.*?) \| (.*)\]\n", it) for it in re.findall(rb"(?<=\n>)\[[^\n]*\]\n", read(HERE, "bell.out"))]
OPENED, CLOSED = b"\x1b[H\x1b[2J\x1b[2r\x1b[2;1H", b"\x1b[r\x1b[999;1H\r\n"


def wrapped(turn, width):
    """A turn's text, each space an end of line behind which no more than the width's columns would hold the next word."""
    shown, column = bytearray(), 0
    for place, byte in enumerate(turn):
        word = re.match(rb"[^ \n]*", turn[place + 1:]).end()
        if byte == SPACE and column + 1 + word > width:
            byte = END
        shown.append(byte)
        column = 0 if byte == END else column + 1
    return bytes(shown)


def with_lines(turns, lines):
    """The text with each line behind its prompt."""
    return b"".join(turn + line for turn, line in zip(turns, [*lines, b""]))


def see_fronts(program, count):
    see_widths(program, count)
    see_kept(program, count)
    see_refused(program, count)
    see_seeds(program, count)
    see_terminal(program, count)
    see_lines_of_their_own(program, count)
    see_stops(program, count)
    see_status_lines(program, count)
    see_replay(program, count)


def see_widths(program, count):
    for width in (1, 7, 20, 40, 80, 1000):
        shown = b"".join(wrapped(turn, width) for turn in TURNS)
        count.is_answer(f"the game in {width} columns", program.run(["play", "--width", str(width), "g"], {"g": GAME}, typed=LINES), Answer(0, shown, b""))
    count.is_answer("the game wrapped at nothing", program.run(["play", "--width", "20", "--plain", "g"], {"g": GAME}, typed=LINES), Answer(0, TEXT, b""))


def see_kept(program, count):
    """What is kept is what was used, also of lines that come all at once; and what is kept can be read again."""
    lines = LINES.splitlines(keepends=True)
    more = LINES + b"these come\nbehind the end\n"
    with room({"g": GAME, "old": b"", "half": b"".join(lines[:9])}) as folder:
        words = ["play", "--record", "lines", "--transcript", "old", "--width", "40", "g"]
        shown = b"".join(wrapped(turn, 40) for turn in TURNS)
        count.is_answer("the game, kept", program.run_in(folder, words, typed=more), Answer(0, shown, b""))
        count.see(read(folder, "lines") == LINES, f"the lines that are kept: {read(folder, 'lines')!r}")
        count.see(read(folder, "old") == with_lines(TURNS, lines), "the text that is kept isn't the game's with its lines")
        count.is_answer("lines read again", program.run_in(folder, ["play", "--replay", "lines", "g"]), Answer(0, TEXT, b""))
        words = ["play", "--replay", "half", "--record", "all", "g"]
        count.is_answer("half of them read again", program.run_in(folder, words, typed=b"".join(lines[9:])), Answer(0, TEXT, b""))
        count.see(read(folder, "all") == LINES, "both halves aren't kept")
        count.is_answer("kept in a device", program.run_in(folder, ["play", "--record", "/dev/null", "g"], typed=LINES), Answer(0, TEXT, b""))


def see_refused(program, count):
    """A file that holds something stays as it is; and one that isn't whole is told of."""
    failed = Answer(4, b"", b"failed: file\n")
    for flag in ("--record", "--transcript"):
        with room({"g": GAME, "mine": b"mine"}) as folder:
            count.is_answer(f"{flag} of what holds something", program.run_in(folder, ["play", flag, "mine", "g"], typed=LINES), failed)
            count.see(read(folder, "mine") == b"mine", f"{flag} has changed what was there")
            count.is_answer(f"{flag} of a folder", program.run_in(folder, ["play", flag, ".", "g"]), failed)
            count.is_answer(f"{flag} in no folder", program.run_in(folder, ["play", flag, "no/file", "g"]), failed)
            full = Answer(4, TEXT, b"failed: file\n")
            count.is_answer(f"{flag} on a full device", program.run_in(folder, ["play", flag, "/dev/full", "g"], typed=LINES), full)
            forced = program.run_in(folder, ["play", "--force", flag, "mine", "g"], typed=LINES)
            count.is_answer(f"{flag} with --force", forced, Answer(0, TEXT, b""))
            wanted = LINES if flag == "--record" else with_lines(TURNS, LINES.splitlines(keepends=True))
            count.see(read(folder, "mine") == wanted, f"{flag} with --force keeps something else")
    count.is_answer("lines of no file", program.run(["play", "--replay", "none", "g"], {"g": GAME}), failed)
    count.is_answer("lines of a folder", program.run(["play", "--replay", ".", "g"], {"g": GAME}), failed)
    # Words that are wrong come first, and nothing is opened.
    with room({"g": GAME}) as folder:
        answer = program.run_in(folder, ["play", "--record", "lines", "--seed", "x", "g"])
        count.see(answer.status == 2 and not os.path.exists(os.path.join(folder, "lines")), f"a file for lines beside wrong words: {answer}")


def see_seeds(program, count):
    drawn = set()
    for words in (["play", "--seed", "random", "g"], ["play", "--seed=random", "g"], ["play", "g", "--seed", "random"]):
        answer = program.run(words, {"g": GAME}, typed=LINES)
        told = re.fullmatch(rb"seed: ([0-9]+)\n", answer.errors)
        count.see(told is not None, f"{words}: {answer}")
        if told:
            drawn.add(told[1])
            again = program.run(["play", "--seed", told[1].decode(), "g"], {"g": GAME}, typed=LINES)
            count.see(again.output == answer.output and answer.status == 0, f"{words}: the seed that is told gives something else")
    count.see(len(drawn) == 3, f"seeds that are drawn: {drawn}")
    count.see(program.run(["play", "--seed", "random"], {}).status == 2, "a seed drawn for no story")
    count.is_answer("random as a story", program.run(["play", "random"], {"random": GAME}, typed=LINES), Answer(0, TEXT, b""))


def see_terminal(program, count):
    """On a terminal: text is wrapped at its width, and a save is kept beside the story."""
    for words, columns, width in [([], None, 80), ([], "40", 40), ([], "0", 80), ([], "x", 80), (["--width", "30"], "40", 30), (["--plain"], "40", None)]:
        with room({"g.z3": GAME}) as folder:
            shown = on_terminal(program, folder, ["play", *words, "g.z3"], columns, [b"look\n"])
            first = TURNS[0] if width is None else wrapped(TURNS[0], width)
            count.see(shown.startswith(first.replace(b"\n", b"\r\n")), f"on a terminal with {words}, {columns}: {shown[:300]!r}")
    with room({"g.z3": GAME}) as folder:
        on_terminal(program, folder, ["play", "g.z3"], None, [b"save\n"])
        count.see(os.path.exists(os.path.join(folder, "g.qzl")), "no save beside the story")
        on_terminal(program, folder, ["play", "--save", "mine", "g.z3"], None, [b"save\n"])
        count.see(sorted(os.listdir(folder)) == ["g.qzl", "g.z3", "mine"], f"a save that is named: {os.listdir(folder)}")
    with room({"g.z3": GAME}) as folder:
        on_terminal(program, folder, ["play", "--no-save", "g.z3"], None, [b"save\n"])
        count.see(os.listdir(folder) == ["g.z3"], f"no save wanted: {os.listdir(folder)}")
    with room({"g.z3": GAME}) as folder:
        program.run_in(folder, ["play", "g.z3"], typed=b"save\n")
        count.see(os.listdir(folder) == ["g.z3"], f"a save with no terminal: {os.listdir(folder)}")


def with_stops(shown, rows, status):
    """The text of a turn, which stops before what comes behind so many rows but one; and how often that is. The key ends a line, which is taken
    back with the word."""
    stop = b"[more]" + drawn(status, 40) + b"\r\n\x1b[A\r\x1b[K"
    lines = shown.split(b"\n")
    pages = [lines[at : at + rows - 1] for at in range(0, len(lines), rows - 1)]
    if pages[-1] == [b""] and len(pages) > 1:
        pages[-2:] = [[*pages[-2], b""]]
    shown = [b"\r\n".join(page) for page in pages]
    return (b"\r\n" + stop).join(shown), len(pages) - 1


def see_stops(program, count):
    """Text stops behind each screenful, where lines are typed on a terminal with a name."""
    turn = wrapped(TURNS[0], 40)
    with room({"g.z3": GAME}) as folder:
        for rows in (3, 4, 9, turn.count(b"\n") + 1, turn.count(b"\n") + 2):
            wanted, stops = with_stops(turn, rows, STATUS[0])
            count.see((stops > 0) == (rows <= turn.count(b"\n") + 1), f"{rows} rows stop {stops} times")
            said = {"TERM": "xterm", "LINES": str(rows + 1)}
            shown = on_terminal(program, folder, ["play", "g.z3"], "40", [b"\n"] * stops, **said)
            count.see(shown.startswith(OPENED + wanted), f"{rows} rows: {shown[:400]!r}, and not {wanted[:400]!r}")
        named = {"TERM": "xterm"}
        for words, said in ((["--plain"], named), (["--plain", "--framed-status"], named), ([], {"TERM": "dumb"}), ([], {}), ([], {"TERM": ""})):
            shown = on_terminal(program, folder, ["play", *words, "g.z3"], "40", [], LINES="4", **said)
            count.see(b"more" not in shown and b"\x1b" not in shown, f"no stop wanted with {words}, {said}: {shown[:300]!r}")


def drawn(status, width):
    """A status line at the top, with the cursor where it was."""
    name, numbers = status[1], status[2]
    line = b" " + name + b" " * (width - 2 - len(name) - len(numbers)) + numbers + b" "
    return b"\x1b7\x1b[2r\x1b[1;1H\x1b[7m" + line + b"\x1b[0m\x1b8"


DRAWN = re.compile(rb"\x1b7\x1b\[2r\x1b\[1;1H\x1b\[7m[^\x1b]*\x1b\[0m\x1b8")


def drawn_once(shown):
    """What a terminal shows, without what draws the line at the top as it stands there already: each flush may."""
    last = [b""]

    def kept(found):
        before, last[0] = last[0], found[0]
        return b"" if found[0] == before else found[0]

    return DRAWN.sub(kept, shown)


def see_status_lines(program, count):
    """The status line stands at the top, and neither in the text nor in what is kept of it."""
    lines = LINES.splitlines(keepends=True)[:3]
    said = {"TERM": "xterm", "LINES": "200"}
    with room({"g.z3": GAME}) as folder:
        shown = on_terminal(program, folder, ["play", "--transcript", "kept", "g.z3"], "60", lines, **said)
        turns = [wrapped(turn, 60).replace(b"\n", b"\r\n") + drawn(status, 60) for turn, status in zip(TURNS, STATUS)][:4]
        typed = [line.replace(b"\n", b"\r\n") for line in lines]
        count.see(drawn_once(shown) == OPENED + with_lines(turns, typed) + CLOSED, f"a play below its status line: {shown!r}")
        count.see(read(folder, "kept") == with_lines(TURNS[:4], lines), "what is kept of a play below its status line")
        shown = on_terminal(program, folder, ["play", "--status", "g.z3"], None, [], **said)
        line = b"[%s | %s]\r\n" % (STATUS[0][1], STATUS[0][2])
        count.see(shown.endswith(b"\r\n>" + line) and b"\x1b" not in shown, f"a status line that is asked for: {shown!r}")
        shown = on_terminal(program, folder, ["play", "none.z3"], None, [], **said)
        count.see(shown == b"", f"nothing is drawn where nothing is shown: {shown!r}")


def see_replay(program, count):
    """Lines of a file are shown on a terminal as if they were typed."""
    lines = LINES.splitlines(keepends=True)
    with room({"g.z3": GAME, "half": b"".join(lines[:2])}) as folder:
        shown = on_terminal(program, folder, ["play", "--plain", "--replay", "half", "g.z3"], None, [lines[2]])
        wanted = with_lines(TURNS[:4], lines[:3]).replace(b"\n", b"\r\n")
        count.see(shown == wanted, f"lines read again on a terminal: {shown!r}")


def see_lines_of_their_own(program, count):
    """On a terminal what is told beside the text begins a line, whether a prompt stands there or not; elsewhere it has no line more."""
    with room({"g.z3": GAME}) as folder:
        shown = on_terminal(program, folder, ["play", "g.z3"], None, [], subprocess.STDOUT)
        count.see(shown.endswith(b"\n>\r\nend: no input\r\n"), f"an end behind a prompt: {shown[-60:]!r}")
        shown = on_terminal(program, folder, ["play", "none.z3"], None, [], subprocess.STDOUT)
        count.see(shown.startswith(b"failed: file: "), f"a failure at first: {shown!r}")
        shown = on_terminal(program, folder, ["play", "--lenient", "--budget", "1", "g.z3"], None, [], subprocess.STDOUT)
        count.see(shown == b"end: budget\r\n", f"an end before any text: {shown!r}")
    count.is_answer("an end behind a prompt, on no terminal", program.run(["play", "g"], {"g": GAME}), Answer(0, TURNS[0], b"end: no input\n"))


def on_terminal(program, folder, words, columns, lines, errors=subprocess.PIPE, **said):
    """What a terminal shows of a play, of which each line is typed once nothing more comes, and then the end of the input. It has no name,
    unless that is said, and no more of it is said than its columns."""
    ours, theirs = pty.openpty()
    surroundings = {name: value for name, value in os.environ.items() if name not in ("COLUMNS", "LINES", "TERM")}
    surroundings.update(said)
    if columns is not None:
        surroundings["COLUMNS"] = columns
    running = subprocess.Popen([program.path, *words], cwd=folder, stdin=theirs, stdout=theirs, stderr=errors, env=surroundings)
    os.close(theirs)
    shown = b""
    for line in [*lines, b"\x04"]:
        shown += heard(ours)
        os.write(ours, line)
    shown += heard(ours)
    running.wait(timeout=60)
    if running.stderr:
        running.stderr.close()
    os.close(ours)
    return shown


def heard(terminal):
    """What comes until nothing has come for a while."""
    told, until = b"", time.monotonic() + 30
    while time.monotonic() < until:
        ready, _, _ = select.select([terminal], [], [], 0.5)
        if not ready:
            break
        try:
            piece = os.read(terminal, 65536)
        except OSError:
            break
        if not piece:
            break
        told += piece
    return told
