#!/usr/bin/env python3
"""Writes a story of version 3 that is as long as one may be and costs a checker most, and its largest certificate.

    hostile.py KIND STORY CERTIFICATE

KIND says what fills the story:

    nops           instructions of one byte each, all of them listed
    prints         texts that share an end: one begins at every second place, and each is listed
    pairs          the same in stretches, where those at even places and those at odd ones take turns
    abbreviations  one text, in which the 96 abbreviations begin at places behind one another
    both           that text, with an instruction that prints the rest of it at every second place
    calls          30,000 routines that only return, and behind them calls, each of which may enter any of the routines

Each story is accepted with its certificate.
"""
import struct
import sys

from straight import CODE, GLOBALS, QUIT, RELEASE, SERIAL, certificate, story, write

LONGEST = 131070
END_WORD = b"\x94\xa5"
PRINT = 0xB2
# The high byte of a word whose low byte is a print's opcode: the Z-characters 4, 5 and 18, each of which changes the alphabet.
HIGH = 0x10


def nops():
    """Instructions of one byte."""
    count = LONGEST - CODE - len(QUIT)
    return b"\xb4" * count + QUIT, range(CODE, CODE + count + 1), None


def stretch(place, words):
    """That many prints at every second place from one on, the words that they print, and the place behind their end."""
    code = bytes([PRINT, HIGH]) * words + bytes([PRINT]) + END_WORD
    return code, range(place, place + 2 * words + 1, 2), place + len(code)


def stretches(words):
    """Stretches of so many words, as many as there is room for, and a quit at the end."""
    code, listed, place = b"", [], CODE
    while place + 2 * words + 3 + len(QUIT) <= LONGEST:
        more, places, place = stretch(place, words)
        code += more
        listed.extend(places)
    return code + QUIT, listed + [place], None


def abbreviations(with_prints):
    """A quit, and then one text with the abbreviations, in whose low bytes prints may stand."""
    words = (LONGEST - CODE - 4 - len(END_WORD) - len(QUIT)) // 2
    text = CODE + 2
    if with_prints:
        # The first print is one byte before the text, and the last one in the low byte of the text's last word but one.
        code = b"\xb4" + bytes([PRINT]) + bytes([HIGH, PRINT]) * words + END_WORD + QUIT
        listed = [CODE, *range(CODE + 1, CODE + 2 + 2 * words, 2), len(code) - 1 + CODE]
    else:
        code = QUIT + b"\0" + bytes([HIGH, PRINT]) * words + END_WORD + QUIT
        listed = [CODE]
    return code, listed, [text // 2 + number for number in range(96)]


ROUTINES = 30000
# No local, and rtrue.
ROUTINE = b"\x00\xb0"
# A call of the routine that global 16 names, whose result goes to global 17.
CALL = b"\xe0\xbf\x10\x11"


def calls():
    """The story and its certificate: the main code begins behind the routines."""
    first = CODE + len(ROUTINE) * ROUTINES
    count = (LONGEST - first - len(QUIT)) // len(CALL)
    made = bytearray(story(ROUTINE * ROUTINES + CALL * count + QUIT)[0])
    made[6:8] = struct.pack(">H", first)
    made[GLOBALS : GLOBALS + 2] = struct.pack(">H", CODE // 2)
    checksum = sum(made[64:]) % 65536
    made[0x1C:0x1E] = struct.pack(">H", checksum)
    parts = [b"ZPCC\x01", struct.pack(">H6sHI", RELEASE, SERIAL, checksum, len(made)), struct.pack(">H", 0)]
    parts.append(struct.pack(">hhhh", CODE // 2, CODE // 2 + ROUTINES - 1, 0, 1) + struct.pack(">hh", 0, 0) * 238)
    parts.append(struct.pack(">H", ROUTINES))
    parts.extend(struct.pack(">IBhh", CODE + 2 * number, 0, 1, 1) for number in range(ROUTINES))
    parts.append(struct.pack(">I", ROUTINES + count + 1))
    parts.extend(struct.pack(">IHB", CODE + 2 * number + 1, number + 1, 0) for number in range(ROUTINES))
    parts.extend(struct.pack(">IHB", first + len(CALL) * number, 0, 0) for number in range(count + 1))
    return bytes(made), b"".join(parts)


def listed_alone(code, listed, texts):
    """The story of this code, with the certificate that lists these places in the main code."""
    whole, checksum = story(code, texts)
    return whole, certificate(len(whole), checksum, listed)


KINDS = {
    "nops": lambda: listed_alone(*nops()),
    "prints": lambda: listed_alone(*stretches((LONGEST - CODE - 4) // 2)),
    "pairs": lambda: listed_alone(*stretches(50)),
    "abbreviations": lambda: listed_alone(*abbreviations(False)),
    "both": lambda: listed_alone(*abbreviations(True)),
    "calls": calls,
}


def main():
    if len(sys.argv) != 4 or sys.argv[1] not in KINDS:
        sys.exit(__doc__)
    write(KINDS[sys.argv[1]](), *sys.argv[2:])


if __name__ == "__main__":
    main()
