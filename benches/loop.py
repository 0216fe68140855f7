#!/usr/bin/env python3
"""Writes a story of version 3 that goes round a loop of plain instructions, and its certificate.

    loop.py KIND ROUNDS STORY CERTIFICATE

KIND is the name of one instruction, twenty of which are in the loop, or empty, or sentence, a print of 114 bytes, or mix: thirteen of them in
turn; or call, of a routine that returns a constant, or call_3, with three arguments, of which it returns the first. All but the prints and the end of
the loop work on globals, constants and the stack. Its certificate lists each instruction, and says that a global may be any word.
"""
import struct
import sys

import straight

ANY = struct.pack(">hh", -32768, 32767)

G = [16 + number for number in range(8)]  # the first globals
BRANCH = 0xC2  # where the condition holds, to the next instruction
ADD = bytes([0x74, G[0], G[1], G[2]])
SUB = bytes([0x55, G[2], 3, G[3]])
AND = bytes([0x49, G[4], 15, G[5]])
STORE = bytes([0x0D, G[6], 9])
STORE_GLOBAL = bytes([0x2D, G[4], G[3]])
INC = bytes([0x95, G[4]])
JE = bytes([0x41, G[3], 5, BRANCH])
JL = bytes([0x62, G[4], G[0], BRANCH])
JZ = bytes([0xA0, G[5], BRANCH])
INC_CHK = bytes([0x05, G[7], 200, BRANCH])
ADD_CONSTANT = bytes([0x54, G[1], 1, G[1]])
PUSH = bytes([0xE8, 0xBF, G[1]])
PULL = bytes([0xE9, 0x7F, G[0]])

KINDS = {
    "empty": [],
    "nop": [b"\xb4"],
    "add": [ADD],
    "store": [STORE],
    "je": [JE],
    "jl": [JL],
    "inc": [INC],
    "push": [PUSH, PULL],
    "new_line": [b"\xbb"],
    "random": [bytes([0xE7, 0x7F, 100, G[0]])],
    "print": [b"\xb2" + straight.encoded("hello ")],
    "sentence": [straight.KINDS["sentence"]],
    "mix": [ADD, SUB, JE, STORE_GLOBAL, INC, JL, AND, JZ, STORE, INC_CHK, ADD_CONSTANT, PUSH, PULL],
}
TIMES = 20

# routines: the arguments of a call, how many locals, and the one instruction
ROUTINES = {"call": ([], 0, b"\x9b\x05"), "call_3": (G[:3], 3, b"\xab\x01")}


def call(place, arguments):
    """A call of the routine at a place with these globals, its result to a global."""
    types = 0x3F & ~sum(0x10 >> (2 * number) for number in range(len(arguments)))
    return bytes([0xE0, types]) + struct.pack(">H", place // 2) + bytes(arguments) + bytes([G[0]])


def instructions(kind, place):
    """The instructions of the loop, with the height of the stack before each, where its routine lies at a place."""
    height = 0
    for instruction in KINDS[kind] * TIMES if kind in KINDS else [call(place, ROUTINES[kind][0])] * TIMES:
        yield instruction, height
        height += {PUSH: 1, PULL: -1}.get(instruction, 0)


def certificate(listed, routines, checksum, length):
    """One that lists these places with their routines, counts of locals and heights, and these routines with their counts of locals, where
    any local, slot, global and result may be any word."""
    head = struct.pack(">4sBH6sHI", b"ZPCC", 1, straight.RELEASE, straight.SERIAL, checksum, length)
    heads = b"".join(struct.pack(">IB", place, count) + ANY for place, count in routines)
    entries = b"".join(struct.pack(">IHB", place, routine, height) + ANY * (count + height) for place, routine, count, height in listed)
    return head + struct.pack(">H", 0) + ANY * 240 + struct.pack(">H", len(routines)) + heads + struct.pack(">I", len(listed)) + entries


def made(kind, rounds):
    """The story of this kind that goes round so many times, its certificate, and how many instructions are played in a round."""
    code, listed, routines = b"", [], []
    for instruction, height in instructions(kind, place_behind(kind)):
        listed.append((straight.CODE + len(code), 0, 0, height))
        code += instruction
    played = len(listed) + 2
    code, ends = straight.looped(code)
    listed.extend((straight.CODE + end, 0, 0, 0) for end in ends)
    if kind in ROUTINES:
        _, count, instruction = ROUTINES[kind]
        code += bytes(place_behind(kind) - straight.CODE - len(code)) + bytes([count]) + bytes(2 * count)
        routines.append((place_behind(kind), count))
        listed.append((straight.CODE + len(code), 1, count, 0))
        code += instruction
        played += TIMES
    story, checksum = straight.story(code)
    return straight.with_rounds(story, rounds), certificate(listed, routines, checksum, len(story)), played


def place_behind(kind):
    """The first even place behind the loop."""
    end = straight.CODE + len(straight.looped(b"".join(instruction for instruction, _ in instructions(kind, 0)))[0])
    return end + end % 2


if __name__ == "__main__":
    straight.write(made(sys.argv[1], int(sys.argv[2])), *sys.argv[3:])
