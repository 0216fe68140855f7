#!/usr/bin/env python3
"""Stories played over their lines and compared byte for byte; then with bytes altered at random: each ends with a name.

    hunt.py PROGRAM FOLDER [SEED]

FOLDER has a folder for each story: NAME.z3, `input`, the lines typed, and `expected`, what is printed. Of each story 200 copies have one
byte altered, and 50 have up to 200. A copy is refused by name, meets a named fault, or ends; where a certificate is found for it, it plays by
that as it does on the checked machine. It isn't a part of the gate, since it needs stories that aren't in the repository.
"""
import os
import random
import re
import sys
import tempfile

from program import Count, Program, side_by_side

ENDS = {
    0: re.compile(rb"(end: (budget|no input|frame limit)\n)?"),
    1: re.compile(rb"refused: [LUJ][0-9]{1,2}( at (-?[0-9]+|[0-9a-f]{5}))?\n"),
    3: re.compile(rb"fault: F[0-9]{1,2} at (-?[0-9]+|[0-9a-f]{5})\n"),
}
FOUND = re.compile(rb"refused: G[12]( at (-?[0-9]+|[0-9a-f]{5}))?\n.*", re.DOTALL)


def copies(story, seed):
    """Copies with bytes altered, each with a name."""
    draw = random.Random(seed)
    for number in range(250):
        altered = bytearray(story)
        for _ in range(1 if number < 200 else draw.randint(2, 200)):
            altered[draw.randrange(len(altered))] = draw.randrange(256)
        yield f"copy {number}", bytes(altered)


def what_is_wrong(program, story, typed):
    """What is wrong with the answers for this story, if anything."""
    plain = program.run(["play", "--budget", "200000", "story"], {"story": story}, typed=typed)
    if plain.status not in ENDS or not ENDS[plain.status].fullmatch(plain.errors):
        return f"played: {plain}"
    with tempfile.TemporaryDirectory(prefix="zpc-") as room:
        with open(os.path.join(room, "story"), "wb") as file:
            file.write(story)
        found = program.run_in(room, ["find", "--strict", "story", "cert"])
        if found.status == 1:
            return None if plain.status == 1 or FOUND.fullmatch(found.errors) else f"{found}; played: {plain}"
        if found.status != 0 or found.output != b"found\n":
            return f"{found}"
        checked = program.run_in(room, ["check", "story", "cert"])
        if checked.status != 0 or checked.output != b"accepted\n":
            return f"found, and then {checked}"
        session = program.run_in(room, ["play", "--budget", "200000", "story", "cert"], typed=typed)
    return None if plain.status == 0 and session == plain else f"{plain}; by the certificate: {session}"


def stories(folder):
    for name in sorted(os.listdir(folder)):
        pieces = [os.path.join(folder, name, part) for part in (f"{name}.z3", "input", "expected")]
        if all(map(os.path.isfile, pieces)):
            yield name, *(open(piece, "rb").read() for piece in pieces)


def main():
    program, seed = Program(sys.argv[1]), int(sys.argv[3]) if len(sys.argv) > 3 else 1
    count = Count("hunt")
    for name, story, typed, expected in stories(sys.argv[2]):
        answer = program.run(["play", "story"], {"story": story}, typed=typed)
        count.see(answer.status == 0 and answer.output == expected, f"{name}: {answer}")
        altered = list(copies(story, f"{seed} {name}"))
        for (copy, _), wrong in zip(altered, side_by_side(lambda case: what_is_wrong(program, case[1], typed), altered)):
            count.see(not wrong, f"{name}, {copy}: {wrong}")
    count.end()


if __name__ == "__main__":
    main()
