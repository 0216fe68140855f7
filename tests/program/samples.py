"""Stories of version 3 and certificates, made from their bytes, after the standard and docs/CERTIFICATE.md alone."""
import struct

QUIT = b"\xba"
NOP = b"\xb4"
NEW_LINE = b"\xbb"
HELLO = b"\xb2\x35\x51\xc6\x85"  # print "hello"

# Where the first sample has its tables.
GLOBALS, DEFAULTS, STATIC, EMPTY_TEXT, DICTIONARY, CODE = 0x40, 0x220, 0x25E, 0x31E, 0x320, 0x324
RELEASE, SERIAL = 1, b"260101"


def word(number):
    return struct.pack(">H", number)


def with_header(rest, first, dictionary, static, code):
    """A story with this behind its header, which begins at `first`; the abbreviations table is the first thing in static memory."""
    length_word, checksum = (64 + len(rest)) // 2 % 65536, sum(rest) % 65536
    words = struct.pack(
        ">BBHHHHHHHH6sHHH",
        3, 0, RELEASE, code, first, dictionary, DEFAULTS, GLOBALS, static, 0, SERIAL, static, length_word, checksum,
    )
    return words.ljust(64, b"\0") + rest


def story(code, first=CODE, abbreviations=None, room=0):
    """A story with this code at CODE, no object and an empty dictionary, with a zero behind code of an odd length. It begins at
    `first`. Each of the 96 abbreviations is empty, or has the text at the even place that is given. One of 131,072 bytes says
    nothing of its length, since the word in the header can't. Of dynamic memory there are so many zeros more, at STATIC, and all
    behind them lies that far behind."""
    places = abbreviations or [EMPTY_TEXT + room] * 96
    rest = bytes(STATIC + room - 64) + b"".join(word(place // 2) for place in places) + b"\x94\xa5" + bytes([0, 4, 0, 0]) + code
    rest += b"\0" * (len(rest) % 2)
    assert 64 + len(rest) <= 131072, len(rest)
    return with_header(rest, first + room, DICTIONARY + room, STATIC + room, CODE + room)


def with_objects(code=QUIT):
    """A story with two objects, of which the second is in the first, two words, and this code at 370."""
    table = b"\0\0\0\0\0\0\x02\x02\x70" + b"\0\0\0\0\x01\0\0\x02\x79" + b"\x01\x98\xa5\x05\x07\x23\x12\x34\0" + b"\x01\x9c\xa5\0"
    rest = (bytes(0x25E - 64) + table).ljust(0x280 - 64, b"\0")
    rest = (rest + b"\x0a").ljust(0x290 - 64, b"\0")
    rest = (rest + b"\x02").ljust(0x29A - 64, b"\0")
    rest += word(0x35A // 2) * 96 + b"\x94\xa5\x01\x2c\x07\x00\x02"
    rest += b"\x1b\x25\x94\xa5\0\0\0" + b"\x46\x94\xc0\xa5\0\0\0" + b"\0" + code + b"\0" * (len(code) % 2)
    return with_header(rest, 0x370, 0x35C, 0x29A, 0x370)


def interval(lower, upper):
    return struct.pack(">hh", lower, upper)


def certificate(made, addresses, values=(0, 0), release=RELEASE, stacks=None, ranges=(), routines=(), inside=None, own=None):
    """A certificate of a story that lists these addresses, and says of each global that it lies between these values, or between its
    own, which are given for the number of its variable. The stack is
    empty, or has the intervals that are given for the address, the bottom one first. An instruction is in the main code, or in the
    routine whose number is given for the address, with its locals. A frozen range is its first and its last place, a routine its
    address, its count of locals and what it may give, which is any word where nothing is said."""
    stacks, inside, own = stacks or {}, inside or {}, own or {}
    parts = [b"ZPCC\x01", struct.pack(">H6s2sI", release, SERIAL, made[0x1C:0x1E], len(made))]
    parts.append(word(len(ranges)))
    parts.extend(struct.pack(">HH", *it) for it in ranges)
    parts.extend(interval(*own.get(number, values)) for number in range(16, 256))
    parts.append(word(len(routines)))
    parts.extend(struct.pack(">IB", at, count) + interval(*(result or [(-32768, 32767)])[0]) for at, count, *result in routines)
    parts.append(struct.pack(">I", len(addresses)))
    for address in addresses:
        slots = stacks.get(address, b"")
        routine, local_values = inside.get(address, (0, b""))
        parts.append(struct.pack(">IHB", address, routine, len(slots) // 4) + local_values + slots)
    return b"".join(parts)


def changed(file, at, *new):
    """A file with other bytes from a place on."""
    return file[:at] + bytes(new) + file[at + len(new) :]


# Z-characters (Z 3.5.3): a space, and the letters from 6 on.
def letter(character):
    return 0 if character == " " else ord(character) - ord("a") + 6


def text(characters):
    """The words of a text of these Z-characters, which ends with shifts that print nothing."""
    characters = list(characters) + [5] * (-len(characters) % 3)
    words = [32 * 32 * a + 32 * b + c for a, b, c in zip(*[iter(characters)] * 3)]
    words[-1] |= 0x8000
    return b"".join(word(it) for it in words)


def printed(string):
    """`print` of a text of small letters and spaces."""
    return b"\xb2" + text([letter(it) for it in string])
