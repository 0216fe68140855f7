#!/usr/bin/env python3
"""Writes the small game that is stored in crates/zpc/data: it thinks of a number, and tells of each guess whether the number is more.

    guess.py STORY CERTIFICATE

The story is made from its instructions, and its certificate from what is said beside them.
"""
import os
import struct
import sys

sys.path.insert(0, os.path.join(os.path.dirname(os.path.abspath(__file__)), "../program"))
from samples import RELEASE, SERIAL, certificate, interval, text, word

# Where the story has its tables.
GLOBALS, DEFAULTS, ENTRY, TABLE, TEXT, PARSE, STATIC, EMPTY_TEXT, DICTIONARY, CODE = (
    0x40, 0x220, 0x25E, 0x267, 0x270, 0x286, 0x298, 0x358, 0x35A, 0x366,
)
TEXT_SIZE, MOST_WORDS = 20, 4

# Variables: the object of the status line, its two numbers, the number that is sought, and the one that is guessed.
PLACE, SCORE, MOVES, SOUGHT, GUESSED = range(16, 21)

MARKS = "0123456789.,!?_#'\"/\\-:()"


def characters(string):
    """The Z-characters of a text of letters, spaces, marks and new lines (Z 3.2)."""
    for it in string:
        if it == " ":
            yield 0
        elif it == "\n":
            yield from (5, 7)
        elif it.islower():
            yield ord(it) - ord("a") + 6
        elif it.isupper():
            yield from (4, ord(it) - ord("A") + 6)
        else:
            yield from (5, MARKS.index(it) + 8)


def printing(string):
    return b"\xb2" + text([*characters(string)])


# Instructions in their order, as pieces: bytes, `("to", label)` for the two bytes of a branch where the condition holds, or of a jump; and
# the labels, as strings. An instruction that begins with a word on the stack says so.
ON_STACK = {"tell"}
LINES = [
    [printing("I am thinking of a number from 1 to 9.\n")],
    [b"\xe7\x7f\x09", bytes([SOUGHT])],  # random 9
    "ask",
    [printing("Your guess? ")],
    [b"\xe4\x0f", word(TEXT), word(PARSE)],  # sread
    [b"\x95", bytes([MOVES])],  # inc
    [b"\xcf\x1f", word(PARSE), b"\x01", b"\x00"],  # loadw: the entry of the first word, to the stack
    "tell",
    [b"\xc1\x8f\x00", word(DICTIONARY + 5), ("to", "gave up")],  # je
    [b"\xd0\x1f", word(TEXT), b"\x01", bytes([GUESSED])],  # loadb: the first character
    [b"\x55", bytes([GUESSED]), b"\x30", bytes([GUESSED])],  # sub
    [b"\x42", bytes([GUESSED]), b"\x01", ("to", "no number")],  # jl
    [b"\x43", bytes([GUESSED]), b"\x09", ("to", "no number")],  # jg
    [b"\x61", bytes([GUESSED, SOUGHT]), ("to", "found")],  # je
    [b"\x62", bytes([GUESSED, SOUGHT]), ("to", "more")],  # jl
    [printing("It is less.\n")],
    [b"\x8c", ("to", "ask")],
    "more",
    [printing("It is more.\n")],
    [b"\x8c", ("to", "ask")],
    "no number",
    [printing("A number from 1 to 9, or quit.\n")],
    [b"\x8c", ("to", "ask")],
    "found",
    [b"\x95", bytes([SCORE])],  # inc
    [printing("You found it. Guesses: ")],
    [b"\xe6\xbf", bytes([MOVES])],  # print_num
    [b"\xbb"],  # new_line
    [b"\xba"],  # quit
    "gave up",
    [printing("It was ")],
    [b"\xe6\xbf", bytes([SOUGHT])],
    [printing(".\n")],
    [b"\xba"],
]


def length(line):
    return sum(2 if isinstance(it, tuple) else len(it) for it in line)


def placed():
    """The address of each instruction, and of each label."""
    places, labels, at = [], {}, CODE
    for line in LINES:
        if isinstance(line, str):
            labels[line] = at
        else:
            places.append(at)
            at += length(line)
    return places, labels


def coded():
    """The instructions as bytes. A branch and a jump say how far it is from behind them, plus 2 (Z 4.7, 15 jump)."""
    places, labels = placed()
    code = b""
    for at, line in zip(places, (it for it in LINES if not isinstance(it, str))):
        behind = at + length(line)
        for it in line:
            if isinstance(it, bytes):
                code += it
            else:
                distance = labels[it[1]] - behind + 2
                code += word(distance % 65536) if line[0] == b"\x8c" else word(0x8000 | distance % 0x4000)
    return code


def story():
    loaded = bytearray(CODE)
    loaded[GLOBALS : GLOBALS + 2] = word(1)
    loaded[ENTRY : ENTRY + 9] = bytes(7) + word(TABLE)
    name = text([*characters("parlour")])
    loaded[TABLE : TABLE + len(name) + 2] = bytes([len(name) // 2]) + name + b"\0"
    loaded[TEXT], loaded[PARSE] = TEXT_SIZE, MOST_WORDS
    loaded[STATIC:EMPTY_TEXT] = word(EMPTY_TEXT // 2) * 96
    loaded[EMPTY_TEXT : EMPTY_TEXT + 2] = b"\x94\xa5"
    quitting = text([*characters("quit"), 5, 5])
    loaded[DICTIONARY : DICTIONARY + 9] = b"\x01.\x04" + word(1) + quitting
    made = bytes(loaded) + coded()
    made += b"\0" * (len(made) % 2)
    header = struct.pack(
        ">BBHHHHHHHH6sHHH",
        3, 0, RELEASE, CODE, CODE, DICTIONARY, DEFAULTS, GLOBALS, STATIC, 0, SERIAL, STATIC, len(made) // 2, sum(made[64:]) % 65536,
    )
    return header.ljust(64, b"\0") + made[64:]


def certified(made):
    """Globals lie in these ranges; a word of the parse buffer may be any; the sizes of both buffers are frozen."""
    places, labels = placed()
    values = {PLACE: (1, 1), SCORE: (-32768, 32767), MOVES: (-32768, 32767), SOUGHT: (0, 9), GUESSED: (-32768, 32767)}
    stacks = {labels[it]: interval(-32768, 32767) for it in ON_STACK}
    return certificate(made, places, stacks=stacks, own=values, ranges=[(TEXT, TEXT), (PARSE, PARSE)])


def main():
    made = story()
    for path, contents in zip(sys.argv[1:], [made, certified(made)]):
        with open(path, "wb") as file:
            file.write(contents)


if __name__ == "__main__":
    main()
