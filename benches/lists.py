#!/usr/bin/env python3
"""Writes a story of version 3 whose certificate of lists costs a checker most, and that certificate.

    lists.py KIND STORY CERTIFICATE

KIND says what each byte of the code begins, which takes both operands from one global, and gives it the result:

    sums        an addition of 64 words and 64, of which 64 come out
    products    a multiplication of the same
    words       a load of a word at 64 arrays and 64 indices, in static memory
    frozen      the same, in dynamic memory that stays as it is
    properties  a property of 31 numbers of 31 objects
    frames      an instruction that does nothing, with 64 lists of 64 words on the stack

Each story is accepted with its certificate.
"""
import struct
import sys

import objects
from straight import CODE, GLOBALS, QUIT, RELEASE, SERIAL, story, write

LONGEST = 131070
ADD, MUL, LOADW, GET_PROP, NOP = 0x74, 0x76, 0x6F, 0x71, 0xB4


def interval(least, greatest):
    """An interval, as certificates of lists spell it."""
    return b"\0" + struct.pack(">hh", least, greatest)


def words(some):
    """A list of words, which rise."""
    return bytes([1, len(some)]) + b"".join(struct.pack(">h", word) for word in some)


def with_globals(whole, value):
    """A story whose globals are all loaded as this word."""
    whole = bytearray(whole)
    whole[GLOBALS : GLOBALS + 480] = struct.pack(">H", value) * 240
    whole[0x1C:0x1E] = struct.pack(">H", sum(whole[64:]) % 65536)
    return bytes(whole)


def certificate(made, values, places, sets=b"", height=0, ranges=()):
    """One that says the same of each global, and the same of the stack at each place but the first."""
    parts = [b"ZPCC\x02", struct.pack(">H6s2sI", RELEASE, SERIAL, made[0x1C:0x1E], len(made))]
    parts.append(struct.pack(">H", len(ranges)) + b"".join(struct.pack(">HH", *each) for each in ranges))
    parts.append(values * 240 + struct.pack(">HI", 0, len(places)))
    for number, place in enumerate(places):
        parts.append(struct.pack(">IHB", place, 0, height if number else 0) + (sets if number else b""))
    return b"".join(parts)


def chain(opcode, values, loaded=0, begin=CODE, before=b"", ranges=()):
    """A story whose code is one byte again and again, behind other bytes, and its certificate."""
    count = LONGEST - begin - 4
    whole = with_globals(story(before + bytes([opcode]) * count + QUIT * 4)[0], loaded)
    if before:
        whole = all_dynamic(whole, begin)
    return whole, certificate(whole, values, range(begin, begin + count + 4), ranges=ranges)


def arithmetic(opcode):
    """Multiples of 1,024: sums and products of them are again such."""
    return chain(opcode, words([1024 * k for k in range(-32, 32)]))


# The word that stands wherever one is loaded, and 63 behind it: all sums lie from 20,045 to 31,386.
LOADED = LOADW * 257
LOADS = words([LOADED + 60 * k for k in range(64)])
FROZEN = (20000, 31999)
BEGIN = 32004
DICTIONARY = bytes([0, 4, 0, 0])


def all_dynamic(whole, begin):
    """The story with static memory from its dictionary on, which lies before the code, and the table of no objects before that."""
    whole = bytearray(whole)
    static = begin - len(DICTIONARY)
    whole[0x04:0x0C] = struct.pack(">HHHH", begin, begin, static, static - 62)
    whole[0x0E:0x10] = struct.pack(">H", static)
    return bytes(whole)


def properties():
    """Objects 1 to 31, each with all properties, whose values are small."""
    count = LONGEST - objects.CODE - 4
    whole = with_globals(objects.story(bytes([GET_PROP]) * count + QUIT * 4)[0], 1)
    frozen = (objects.PROPERTIES, objects.STATIC - 1)
    return whole, certificate(whole, interval(1, 31), range(objects.CODE, objects.CODE + count + 4), ranges=[frozen])


def frames():
    """A quit, and behind it instructions that nothing leads to, with the stack that is said of them."""
    count = 8000
    whole = story(QUIT + bytes([NOP]) * count + QUIT)[0]
    return whole, certificate(whole, interval(0, 0), range(CODE, CODE + count + 2), words([2 * k for k in range(64)]) * 64, 64)


KINDS = {
    "sums": lambda: arithmetic(ADD),
    "products": lambda: arithmetic(MUL),
    "words": lambda: chain(LOADW, LOADS, LOADED),
    "frozen": lambda: chain(LOADW, LOADS, LOADED, BEGIN, bytes([LOADW]) * (BEGIN - CODE - len(DICTIONARY)) + DICTIONARY, [FROZEN]),
    "properties": properties,
    "frames": frames,
}


def main():
    if len(sys.argv) != 4 or sys.argv[1] not in KINDS:
        sys.exit(__doc__)
    write(KINDS[sys.argv[1]](), *sys.argv[2:])


if __name__ == "__main__":
    main()
