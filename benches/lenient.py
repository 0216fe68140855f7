#!/usr/bin/env python3
"""Counts what an answer to a fault costs in lenient play, in host instructions: a division by 0, in a loop, over one that is none.

    lenient.py PROGRAM
"""
import os
import re
import subprocess
import sys
import tempfile

sys.path.append(os.path.join(os.path.dirname(os.path.abspath(__file__)), "../tests/program"))

from samples import QUIT, STATIC, story, word

ROUNDS = 3000
NEXT = bytes.fromhex("9511 C28F11") + word(ROUNDS)  # inc global 17, and jl of it and the rounds


def looping(divisor, room):
    """A story that divides 5 again and again, with so many bytes of dynamic memory more than the smallest has."""
    body = bytes([0x17, 5, divisor, 0x10]) + NEXT
    return story(body + word(0x8000 | -len(body) & 0x3FFF) + QUIT, room=room)


def instructions(program, made, folder):
    """The host instructions of a lenient play, by callgrind."""
    path = os.path.join(folder, "story")
    with open(path, "wb") as file:
        file.write(made)
    words = ["valgrind", "--tool=callgrind", "--callgrind-out-file=/dev/null", program, "play", "--lenient", path]
    ran = subprocess.run(words, stdin=subprocess.DEVNULL, capture_output=True, check=True, text=True, errors="replace")
    return int(re.search(r"Collected : (\d+)", ran.stderr)[1])


def main():
    for room in (0, 50000):
        with tempfile.TemporaryDirectory() as folder:
            answered, made = (instructions(sys.argv[1], looping(divisor, room), folder) for divisor in (0, 1))
        print(f"{STATIC + room} bytes of dynamic memory: {(answered - made) / ROUNDS:,.0f} instructions an answer")


if __name__ == "__main__":
    main()
