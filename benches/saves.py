#!/usr/bin/env python3
"""Writes a story of version 3 that has 65,280 bytes of dynamic memory, saves once and then restores that save for ever, and its certificate.

    saves.py STORY CERTIFICATE

Of its steps the first saves; each further one goes on at the save, which was just judged and restored.
"""
import struct
import sys

import straight

STATIC = 0xFF00
DICTIONARY = STATIC + 2 * 96 + 2
CODE = DICTIONARY + 4
NEXT = 0xC2  # a branch where the condition holds, to the next instruction

SAVE = bytes([0xB5, NEXT])
RESTORE = bytes([0xB6, NEXT])


def made():
    """The story and its certificate."""
    rest = bytes(STATIC - 64) + struct.pack(">H", (DICTIONARY - 2) // 2) * 96 + b"\x94\xa5" + bytes([0, 4, 0, 0]) + SAVE + RESTORE + straight.QUIT
    rest += bytes(len(rest) % 2)
    checksum = sum(rest) % 65536
    head = struct.pack(
        ">BBHHHHHHHH6sHHH",
        3, 0, straight.RELEASE, CODE, CODE, DICTIONARY, straight.DEFAULTS, straight.GLOBALS, STATIC, 0, straight.SERIAL, STATIC, (64 + len(rest)) // 2, checksum,
    )
    places = [CODE, CODE + len(SAVE), CODE + len(SAVE + RESTORE)]
    return head.ljust(64, b"\0") + rest, straight.certificate(64 + len(rest), checksum, places)


if __name__ == "__main__":
    straight.write(made(), *sys.argv[1:])
