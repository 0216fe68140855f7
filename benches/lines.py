#!/usr/bin/env python3
"""Writes a story of version 3 that reads lines and answers each with a sentence of 114 bytes, its certificate, and the lines.

    lines.py KIND ROUNDS STORY CERTIFICATE LINES

KIND is read, or answer, which prints the sentence alone and reads nothing. ROUNDS is the number of lines. A line has one to six words, most of
them among the 250 of the story's dictionary; some end with a comma.
"""
import random
import struct
import sys

import straight

ENTRY = straight.DEFAULTS + 62  # of the one object, the place that a status line names
PROPERTIES = ENTRY + 9
TEXT = PROPERTIES + 2
LETTERS = 80
PARSE = TEXT + LETTERS + 2
TOKENS = 15
STATIC = PARSE + 2 + 4 * TOKENS
DICTIONARY = STATIC + 2 * 96 + 2
ANY = struct.pack(">hh", -32768, 32767)
PLACE = 16  # the global that names it

SREAD = bytes([0xE4, 0x0F]) + struct.pack(">HH", TEXT, PARSE)
SENTENCE = straight.KINDS["sentence"]
KINDS = {"read": [SREAD, SENTENCE], "answer": [SENTENCE]}


def words(draw):
    """250 words of three to six letters."""
    made = set()
    while len(made) < 250:
        made.add("".join(draw.choices("abcdefghijklmnopqrstuvwxyz", k=draw.randint(3, 6))))
    return sorted(made)


def entry(word):
    """The bytes of a word's entry: six Z-characters, padded with 5, and three bytes of data."""
    characters = [ord(letter) - ord("a") + 6 for letter in word] + [5] * (6 - len(word))
    high, low = (a << 10 | b << 5 | c for a, b, c in (characters[:3], characters[3:]))
    return struct.pack(">HH", high, 0x8000 | low) + bytes(3)


def dictionary(words):
    """A dictionary of these words, in which comma and stop stand for themselves."""
    return b"\2,.\7" + struct.pack(">H", len(words)) + b"".join(sorted(entry(word) for word in words))


def line(words, draw):
    """One line of the player."""
    chosen = [draw.choice(words + ["zzzz"]) for _ in range(draw.randint(1, 6))]
    return (", " if draw.random() < 0.1 else " ").join(chosen) + "\n"


def story(code_of, words, rounds):
    """The whole story with the code that stands at a place, which goes round so many times, and its checksum."""
    entries = dictionary(words)
    code = DICTIONARY + len(entries)
    rest = struct.pack(">H", 1).ljust(480, b"\0") + bytes(62) + bytes(7) + struct.pack(">H", PROPERTIES) + bytes(2)
    rest += bytes([LETTERS]).ljust(LETTERS + 2, b"\0") + bytes([TOKENS]).ljust(2 + 4 * TOKENS, b"\0")
    rest += struct.pack(">H", (DICTIONARY - 2) // 2) * 96 + b"\x94\xa5" + entries + code_of
    rest += bytes(len(rest) % 2)
    checksum = sum(rest) % 65536
    head = struct.pack(
        ">BBHHHHHHHH6sHHH",
        3, 0, straight.RELEASE, code, code, DICTIONARY, straight.DEFAULTS, straight.GLOBALS, STATIC, 0, straight.SERIAL, STATIC, (64 + len(rest)) // 2, checksum,
    )
    return straight.with_rounds(head.ljust(64, b"\0") + rest, rounds), checksum, code


def certificate(length, checksum, places):
    """One that lists these places, and says that the first bytes of both buffers stay as they are."""
    head = struct.pack(">4sBH6sHI", b"ZPCC", 1, straight.RELEASE, straight.SERIAL, checksum, length)
    ranges = struct.pack(">HHHHH", 2, TEXT, TEXT, PARSE, PARSE)
    values = struct.pack(">hh", 0, 1) + bytes(4 * 238) + ANY
    listed = b"".join(struct.pack(">IHB", place, 0, 0) for place in places)
    return head + ranges + values + struct.pack(">H", 0) + struct.pack(">I", len(places)) + listed


def made(kind, rounds):
    """The story of this kind for so many lines, its certificate, how many instructions are played in a round, and the lines."""
    draw = random.Random(1)
    known = words(draw)
    code, places = b"", []
    for instruction in KINDS[kind]:
        places.append(len(code))
        code += instruction
    code, ends = straight.looped(code)
    whole, checksum, start = story(code, known, rounds)
    listed = certificate(len(whole), checksum, [start + place for place in places + ends])
    return whole, listed, len(places) + 2, "".join(line(known, draw) for _ in range(rounds)).encode()


if __name__ == "__main__":
    MADE = made(sys.argv[1], int(sys.argv[2]))
    straight.write(MADE, *sys.argv[3:5])
    with open(sys.argv[5], "wb") as FILE:
        FILE.write(MADE[3])
