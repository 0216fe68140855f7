#!/usr/bin/env python3
"""Writes a story of version 3 that plays one instruction again and again and then quits, and its certificate.

    straight.py KIND COUNT STORY CERTIFICATE

KIND is nop, new_line, print (of hello) or sentence (a print of 114 bytes); COUNT says how many of them come before the quit. The story has no objects, 96 abbreviations
with nothing in them and a dictionary with no entry. Its certificate lists each instruction, and says that each global is 0.
"""
import struct
import sys

SENTENCE = (
    "The path leads north through tall grass, past an old stone well, and ends at a small gate. A bird sings somewhere."
)
MARKS = "0123456789.,!?_#'\"/\\-:()"


def encoded(text):
    """The words of a text of letters, spaces and marks, padded with Z-character 5."""
    characters = []
    for letter in text:
        if letter == " ":
            characters.append(0)
        elif letter.islower():
            characters.append(ord(letter) - ord("a") + 6)
        elif letter.isupper():
            characters += [4, ord(letter) - ord("A") + 6]
        else:
            characters += [5, MARKS.index(letter) + 8]
    characters += [5] * (-len(characters) % 3)
    words = [a << 10 | b << 5 | c for a, b, c in zip(*[iter(characters)] * 3)]
    words[-1] |= 0x8000
    return struct.pack(f">{len(words)}H", *words)


# The bytes of one instruction.
KINDS = {
    "nop": b"\xb4",
    "new_line": b"\xbb",
    "print": b"\xb2" + encoded("hello"),
    "sentence": b"\xb2" + encoded(SENTENCE),
}
QUIT = b"\xba"

GLOBALS = 0x40
DEFAULTS = 0x220
STATIC = 0x25E
EMPTY_TEXT = 0x31E
DICTIONARY = 0x320
CODE = 0x324
RELEASE = 1
SERIAL = b"260101"


def body(texts):
    """What stands between the header and the code, where the abbreviations are at these words."""
    dynamic = bytes(STATIC - 64)  # 240 globals, and 31 property defaults
    abbreviations = struct.pack(">96H", *(texts or [EMPTY_TEXT // 2] * 96))
    return dynamic + abbreviations + b"\x94\xa5" + bytes([0, 4, 0, 0])


COUNTER = 255  # the global that counts the rounds of a loop


def looped(code):
    """A loop round this code that ends by itself: once the counter, less 1 each time, is below 0. And where its last three instructions,
    which are dec_chk, jump and quit, begin in it."""
    places = [len(code), len(code) + 4, len(code) + 7]
    return code + bytes([0x04, COUNTER, 0, 0xC5]) + b"\x8c" + struct.pack(">h", 2 - 3 - places[1]) + QUIT, places


def with_rounds(story, rounds):
    """The story with a counter for so many rounds. Its checksum stays as it was, which no loop asks for."""
    place = GLOBALS + 2 * (COUNTER - 16)
    return story[:place] + struct.pack(">H", rounds - 1) + story[place + 2 :]


def header(length, checksum):
    """The header of a story of a length and a checksum."""
    words = struct.pack(
        ">BBHHHHHHHH6sHHH",
        3, 0, RELEASE, CODE, CODE, DICTIONARY, DEFAULTS, GLOBALS, STATIC, 0, SERIAL, STATIC, length // 2, checksum,
    )
    return words.ljust(64, b"\0")


def story(code, texts=None):
    """The whole story with this code, and its checksum. The abbreviations are at these words, or have nothing in them."""
    rest = body(texts) + code
    if len(rest) % 2 == 1:
        rest += b"\0"
    length = 64 + len(rest)
    if length >= 131072:
        sys.exit(f"a story of {length} bytes is too long")
    checksum = sum(rest) % 65536
    return header(length, checksum) + rest, checksum


def certificate(loaded_length, checksum, addresses):
    """A certificate that lists these addresses, each in the main code with an empty stack."""
    parts = [b"ZPCC\x01", struct.pack(">H6sHI", RELEASE, SERIAL, checksum, loaded_length)]
    parts.append(struct.pack(">H", 0))  # no ranges
    parts.append(struct.pack(">hh", 0, 0) * 240)
    parts.append(struct.pack(">H", 0))  # no routines
    parts.append(struct.pack(">I", len(addresses)))
    parts.extend(struct.pack(">IHB", address, 0, 0) for address in addresses)
    return b"".join(parts)


def write(made, story_name, certificate_name):
    """Writes a story and its certificate to files of these names."""
    for name, contents in zip((story_name, certificate_name), made):
        with open(name, "wb") as file:
            file.write(contents)


def main():
    if len(sys.argv) != 5 or sys.argv[1] not in KINDS or not sys.argv[2].isdigit():
        sys.exit(__doc__)
    kind, count, story_name, certificate_name = sys.argv[1:]
    instruction = KINDS[kind]
    count = int(count)
    whole, checksum = story(instruction * count + QUIT)
    addresses = range(CODE, CODE + len(instruction) * count + 1, len(instruction))
    write((whole, certificate(len(whole), checksum, addresses)), story_name, certificate_name)


if __name__ == "__main__":
    main()
