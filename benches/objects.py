#!/usr/bin/env python3
"""Writes a story of version 3 with 255 objects that goes round a loop of object instructions, or has many that are played once, and its
certificate.

    objects.py KIND COUNT ROUNDS STORY CERTIFICATE

KIND is ask (jin, test_attr and the three that follow a link), mark (set_attr, clear_attr), move (insert_obj, remove_obj), property (the
four that ask for properties, put_prop and print_obj) or all of them in turn; COUNT says how many there are in the loop, and ROUNDS how
often it is gone round; with 0 there is none. Each takes its objects, attributes and properties from globals, which may be any
of them by the certificate. Objects 1 and 2 are asked for, of which the second is in the first, and property 20 of the 31 of two bytes
that each object has.
"""
import struct
import sys
from itertools import cycle, islice

import straight

OBJECTS = 255
OBJECT, OTHER, ATTRIBUTE, RESULT, NUMBER, ADDRESS, VALUE = range(16, 23)  # globals
VALUES = {
    OBJECT: (1, OBJECTS),
    OTHER: (1, OBJECTS),
    ATTRIBUTE: (0, 31),
    RESULT: (0, OBJECTS),
    NUMBER: (1, 31),
    ADDRESS: (0, 1000),
    VALUE: (-32768, 32767),
    straight.COUNTER: (-32768, 32767),
}
FIRST = {OBJECT: 1, OTHER: 2, ATTRIBUTE: 9, NUMBER: 20, ADDRESS: 1000}
BRANCH = 0xC2  # where the condition holds, to the next instruction

KINDS = {
    "ask": [
        bytes([0x66, OTHER, OBJECT, BRANCH]),
        bytes([0x6A, OBJECT, ATTRIBUTE, BRANCH]),
        bytes([0xA1, OBJECT, RESULT, BRANCH]),
        bytes([0xA2, OBJECT, RESULT, BRANCH]),
        bytes([0xA3, OBJECT, RESULT]),
    ],
    "mark": [bytes([0x6B, OBJECT, ATTRIBUTE]), bytes([0x6C, OBJECT, ATTRIBUTE])],
    "move": [bytes([0x6E, OTHER, OBJECT]), bytes([0xA9, OTHER])],
}
KINDS["property"] = [
    bytes([0x71, OBJECT, NUMBER, VALUE]),
    bytes([0x72, OBJECT, NUMBER, VALUE]),
    bytes([0x73, OBJECT, NUMBER, VALUE]),
    bytes([0xA4, ADDRESS, VALUE]),
    bytes([0xE3, 0xAB, OBJECT, NUMBER, VALUE]),
    bytes([0xAA, OBJECT]),
]
KINDS["all"] = KINDS["ask"] + KINDS["mark"] + KINDS["move"] + KINDS["property"]

TABLE = straight.DEFAULTS
ENTRIES = TABLE + 62
PROPERTIES = ENTRIES + 9 * OBJECTS  # one table, of no name and with all properties, for all
LIST = bytes(1) + b"".join(bytes([32 + number, 0, number]) for number in range(31, 0, -1)) + bytes(1)
STATIC = PROPERTIES + len(LIST)
DICTIONARY = STATIC + 2 * 96 + 2
CODE = DICTIONARY + 4


def story(code):
    """The whole story with this code, and its checksum."""
    values = b"".join(struct.pack(">H", FIRST.get(number, 0)) for number in range(16, 256))
    links = {1: (0, 0, 2), 2: (1, 0, 0)}
    entries = b"".join(bytes(4) + bytes(links.get(number, (0, 0, 0))) + struct.pack(">H", PROPERTIES) for number in range(1, OBJECTS + 1))
    rest = values + bytes(62) + entries + LIST + struct.pack(">H", (DICTIONARY - 2) // 2) * 96 + b"\x94\xa5" + bytes([0, 4, 0, 0]) + code
    rest += bytes(len(rest) % 2)
    checksum = sum(rest) % 65536
    head = struct.pack(
        ">BBHHHHHHHH6sHHH",
        3, 0, straight.RELEASE, CODE, CODE, DICTIONARY, TABLE, straight.GLOBALS, STATIC, 0, straight.SERIAL, STATIC, (64 + len(rest)) // 2, checksum,
    )
    return head.ljust(64, b"\0") + rest, checksum


def certificate(length, checksum, addresses):
    """One that lists these addresses in the main code, with an empty stack."""
    head = struct.pack(">4sBH6sHI", b"ZPCC", 1, straight.RELEASE, straight.SERIAL, checksum, length)
    values = b"".join(struct.pack(">hh", *VALUES.get(number, (0, 0))) for number in range(16, 256))
    entries = b"".join(struct.pack(">IHB", address, 0, 0) for address in addresses)
    return head + struct.pack(">H", 0) + values + struct.pack(">H", 0) + struct.pack(">I", len(addresses)) + entries


def made(kind, count, rounds):
    """The story with so many of this kind in a loop of so many rounds, its certificate, and how many instructions are played in a round."""
    code, places = b"", []
    for instruction in islice(cycle(KINDS[kind]), count):
        places.append(len(code))
        code += instruction
    code, ends = straight.looped(code) if rounds else (code + straight.QUIT, [len(code)])
    whole, checksum = story(code)
    listed = certificate(len(whole), checksum, [CODE + place for place in places + ends])
    return straight.with_rounds(whole, max(rounds, 1)), listed, len(places) + 2


if __name__ == "__main__":
    straight.write(made(sys.argv[1], int(sys.argv[2]), int(sys.argv[3])), *sys.argv[4:])
