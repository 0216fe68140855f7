"""The sample game: its walkthrough on both machines, saved and gone on with, and a certificate found for it."""
import os
import tempfile

from program import Answer

HERE = os.path.dirname(os.path.abspath(__file__))
DATA = os.path.join(HERE, "../../crates/zpc/data")

# what is typed up to a save, and in a play that goes on from it
SAVED = b"take hook\nsave\n"
GONE_ON = b"restore\ninventory\n"


def read(*path):
    with open(os.path.join(*path), "rb") as file:
        return file.read()


def see_saves(program, count, words):
    """What is carried when it is saved is carried when another play goes on from there."""
    with tempfile.TemporaryDirectory(prefix="zpc-") as room:
        for name in ("bell.z3", "bell.cert"):
            with open(os.path.join(room, name), "wb") as file:
                file.write(read(DATA, name))
        play = ["play", "--save", "kept", *words]
        first = program.run_in(room, play, typed=SAVED)
        count.see(first.output.endswith(b"Taken.\n\n>Saved, or gone on from there.\n\n>") and first.errors == b"end: no input\n", f"{words}, saved: {first}")
        second = program.run_in(room, play, typed=GONE_ON)
        count.see(second.output.endswith(b">Saved, or gone on from there.\n\n>You carry:\n  the iron hook\n\n>"), f"{words}, gone on: {second}")
        third = program.run_in(room, ["play", *words], typed=b"save\nrestore\n")
        count.see(b">That can't be saved.\n\n>There is nothing to go on from.\n\n>" in third.output, f"{words}, with no file: {third}")


def see_game(program, count):
    files = {"story": read(DATA, "bell.z3"), "certificate": read(DATA, "bell.cert")}
    lines, shown = read(HERE, "bell.txt"), read(HERE, "bell.out")
    for words in (["story"], ["story", "certificate"]):
        answer = program.run(["play", "--status", *words], files, typed=lines)
        count.is_answer(f"the walkthrough of the game, {' '.join(words)}", answer, Answer(0, shown, b""))
    answer, found = program.found(files["story"])
    count.is_answer("a certificate of the game", answer, Answer(0, b"found\n", b""))
    count.see(found == files["certificate"], "the certificate of the game isn't the stored one")
    for words in (["bell.z3"], ["bell.z3", "bell.cert"]):
        see_saves(program, count, words)
