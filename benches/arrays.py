#!/usr/bin/env python3
"""Writes a story of version 3 that goes round a loop of loads and stores, or has many that are played once, and its certificate.

    arrays.py KIND COUNT ROUNDS STORY CERTIFICATE

KIND is load (loadw, loadb), store (storew, storeb) or all: these four in turn, a loadw of a table that stays as it is, and a print_addr and a
print_paddr of a text in that table. COUNT says how many there are in the loop, and ROUNDS how often it is gone round; with 0 there is none. Each has a constant array of 5,000 bytes, and its index, or the text its address, from a global that may be any that lies in the
array by the certificate, at no whole block from either end.
"""
import struct
import sys
from itertools import cycle, islice

import straight

INDEX, VALUE, TEXT, PACKED = 16, 17, 18, 19  # globals
LENGTH = 5000
LAST = 2490  # the greatest index
ANY = struct.pack(">hh", -32768, 32767)
OPEN = straight.DEFAULTS + 62 + 1  # an odd place in dynamic memory
STATIC = OPEN + LENGTH + 1
DICTIONARY = STATIC + 2 * 96 + 2
TABLE = DICTIONARY + 4 + 1  # an odd place in static memory
CODE = TABLE + LENGTH + 1


def loading(opcode, array):
    return bytes([opcode, 0x2F]) + struct.pack(">H", array) + bytes([INDEX, VALUE])


def storing(opcode):
    return bytes([opcode, 0x2B]) + struct.pack(">H", OPEN) + bytes([INDEX, VALUE])


KINDS = {"load": [loading(0xCF, OPEN), loading(0xD0, OPEN)], "store": [storing(0xE1), storing(0xE2)]}
KINDS["all"] = KINDS["load"] + KINDS["store"] + [loading(0xCF, TABLE), bytes([0xA7, TEXT]), bytes([0xAD, PACKED])]


def story(code):
    """The whole story with this code, and its checksum."""
    rest = struct.pack(">HHHH", 5, 0, TABLE, TABLE // 2 + 1).ljust(480, b"\0") + bytes(STATIC - straight.DEFAULTS)
    rest += struct.pack(">H", (DICTIONARY - 2) // 2) * 96 + b"\x94\xa5" + bytes([0, 4, 0, 0])
    rest += bytes(number * 7 % 251 for number in range(CODE - TABLE + 1)) + code
    rest += bytes(len(rest) % 2)
    checksum = sum(rest) % 65536
    head = struct.pack(
        ">BBHHHHHHHH6sHHH",
        3, 0, straight.RELEASE, CODE, CODE, DICTIONARY, straight.DEFAULTS, straight.GLOBALS, STATIC, 0, straight.SERIAL, STATIC, (64 + len(rest)) // 2, checksum,
    )
    return head.ljust(64, b"\0") + rest, checksum


def certificate(length, checksum, addresses):
    """One that lists these addresses in the main code, with an empty stack."""
    head = struct.pack(">4sBH6sHI", b"ZPCC", 1, straight.RELEASE, straight.SERIAL, checksum, length)
    texts = struct.pack(">hhhh", TABLE, TABLE + LENGTH - 4, TABLE // 2 + 1, (TABLE + LENGTH - 4) // 2)
    values = struct.pack(">hh", 0, LAST) + ANY + texts + bytes(4 * 235) + ANY
    entries = b"".join(struct.pack(">IHB", address, 0, 0) for address in addresses)
    return head + struct.pack(">H", 0) + values + struct.pack(">H", 0) + struct.pack(">I", len(addresses)) + entries


def made(kind, count, rounds):
    """The story with so many of this kind in a loop of so many rounds, its certificate, and how many instructions are played in a round."""
    code, places = b"", []
    for instruction in islice(cycle(KINDS[kind]), count):
        places.append(len(code))
        code += instruction
    code, ends = straight.looped(code) if rounds else (code + straight.QUIT, [len(code)])
    whole, checksum = story(code)
    listed = certificate(len(whole), checksum, [CODE + place for place in places + ends])
    return straight.with_rounds(whole, max(rounds, 1)), listed, len(places) + 2


if __name__ == "__main__":
    straight.write(made(sys.argv[1], int(sys.argv[2]), int(sys.argv[3])), *sys.argv[4:])
