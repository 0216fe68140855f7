"""Runs of the opcodes that load and store elements of arrays, on both machines. What is printed, and the values that certificates
state, are worked out by hand after the standard, docs/MACHINE.md and docs/CERTIFICATE.md."""
from plays import PRINT_FIRST, PRINT_TOP, PUSH, QUIT, SAY_YES, UNLISTED, Plays, fault, placed, printed, slots, tighter
from program import Answer
from properties import BYTE, CODE, FIVE, GET_1_3, GET_1_5, HIGH, THREE, WIDE, bytes_at, default, files, high, pushing
from samples import NOP, certificate, interval, with_objects, word

G, H, STACK, LOCAL = b"\x10", b"\x11", b"\x00", b"\x01"  # global 16, global 17, the stack, a local
NONE = {}
POP = b"\xb9"
PRINT_SECOND = b"\xe6\xbf\x11"  # global 17


def operands(*given):
    """The type byte of these operands, and their bytes: a number is a large constant, and bytes name a variable (Z 4.2, 4.4)."""
    types = "".join("10" if isinstance(it, bytes) else "00" for it in given).ljust(8, "1")
    return bytes([int(types, 2)]) + b"".join(it if isinstance(it, bytes) else word(it % 65536) for it in given)


def loadw(array, index, to=0):
    return b"\xcf" + operands(array, index) + bytes([to])


def loadb(array, index, to=0):
    return b"\xd0" + operands(array, index) + bytes([to])


def storew(array, index, value):
    return b"\xe1" + operands(array, index, value)


def storeb(array, index, value):
    return b"\xe2" + operands(array, index, value)


def first(value, lower, upper):
    """What is known of global 16: its value, and from where to where it may be."""
    return {16: (value, lower, upper)}


def both(of_first, of_second):
    """The same of globals 16 and 17."""
    return {16: of_first, 17: of_second}


def frozen(*ranges):
    """The end of a row of which only what is frozen is told."""
    return NONE, NONE, list(ranges)


def only(number):
    """From where to where a result may be that can't be another, and what is printed of it."""
    return (number, number), str(number).encode()


# ---- results: the instruction, from where to where its result may be, what is printed; then what is known of globals, bytes of the
# story that are others, and what is frozen, where there are such
#
# Bytes of the story: objects have their entries at 25E and 267, with attributes first and the address of their table last.
# 270: 01 98 A5, 05 07, 23 12 34, 00     the name a, property 5, property 3, the end
# 279: 01 9C A5, 00                      the name b, the end
# 27D: 00 00 00 0A ..                    free up to the end of dynamic memory, 02 at 290, else 00
# 29A: 01 AD, 96 times                   abbreviations
# 35A: 94 A5                              the empty text, to which each abbreviation leads
# 35C: 01 2C 07 00 02                    the dictionary: a comma separates, and there are two entries of seven bytes
# 361: 1B 25 94 A5 00 00 00              the word at
# 368: 46 94 C0 A5 00 00 00, 00          the word look

FREE = (0x27D, 0x299)
UP_TO_TWO, UP_TO_NINE = first(0, 0, 2), first(0, 0, 9)

RESULTS = [
    # static memory
    ("a byte of static memory", loadb(0x35C, 1), *only(44)),
    ("a word of static memory", loadw(0x35C, 0), *only(300)),
    ("a word at an odd address", loadw(0x35B, 0), *only(-23295)),
    ("a word below 0", loadw(0x363, 0), *only(-27483)),
    ("an index of words counts twice", loadw(0x35F, 1), *only(6949)),
    ("an index of bytes counts once", loadb(0x35F, 2), *only(27)),
    ("the greatest byte", loadb(0x36F, 0), *only(255), NONE, {0x36F: 255}),
    ("the greatest word", loadw(0x36D, 0), *only(32767), NONE, {0x36D: 0x7F, 0x36E: 0xFF}),
    ("the least word", loadw(0x36D, 0), *only(-32768), NONE, {0x36D: 0x80}),
    ("a word by small constants", b"\x0f\x0e\x00\x00", *only(666)),
    ("a byte by small constants", b"\x10\x0f\x00\x00", *only(154)),
    ("a byte by a small constant and a variable", b"\x30\x08\x10\x00", *only(92), first(1, 1, 1)),
    ("a word by a variable and a small constant", b"\x4f\x10\x01\x00", *only(860), first(6, 6, 6)),
    # the header
    ("the first byte", loadb(0, 0), *only(3)),
    ("the first word", loadw(0, 0), *only(768)),
    ("Flags 1 as it was loaded", loadb(0, 1), *only(2), NONE, {1: 0x72}),
    ("the base of static memory", loadw(0, 7), *only(666)),
    ("the byte before Flags 2", loadb(0x0F, 0), *only(154)),
    ("the first byte of Flags 2", loadb(0x10, 0), BYTE, b"1", NONE, {0x10: 1}),
    ("the second byte of Flags 2", loadb(0x11, 0), BYTE, b"2", NONE, {0x11: 2}),
    ("the byte behind Flags 2", loadb(0x12, 0), *only(50)),
    ("a word with the first byte of Flags 2", loadw(0x0F, 0), WIDE, b"-26112"),
    ("Flags 2", loadw(0x10, 0), WIDE, b"258", NONE, {0x10: 1, 0x11: 2}),
    ("a word with the second byte of Flags 2", loadw(0x11, 0), WIDE, b"50"),
    ("the word behind Flags 2", loadw(0x12, 0), *only(12854)),
    ("the last byte of the header", loadb(0x3F, 0), *only(0)),
    ("the last word of the header", loadw(0x3E, 0), *only(0)),
    ("a word of the header and a global", loadw(0x3F, 0), WIDE, b"0"),
    # globals, defaults, entries of objects
    ("a byte of a global", loadb(0x40, 1), BYTE, b"5", first(5, 5, 5)),
    ("a global of which one value is stated", loadw(0x40, 0), WIDE, b"5", first(5, 5, 5)),
    ("the last global", loadw(0x40, 239), WIDE, b"-3", {255: (-3, -3, -3)}),
    ("a word of a global and a default", loadw(0x21F, 0), WIDE, b"0"),
    ("the first default", loadw(0x220, 0), *only(-5), NONE, default(1, -5)),
    ("the last default", loadw(0x220, 30), *only(400), NONE, default(31, 400)),
    ("a word of a default and attributes", loadw(0x25D, 0), WIDE, b"0"),
    ("the first attributes", loadb(0x25E, 0), BYTE, b"128", NONE, {0x25E: 0x80}),
    ("the last attributes", loadb(0x26A, 0), BYTE, b"1", NONE, {0x26A: 1}),
    ("a parent", loadb(0x26B, 0), BYTE, b"1"),
    ("a sibling", loadb(0x26C, 0), BYTE, b"0"),
    ("a child", loadb(0x264, 0), BYTE, b"2"),
    ("a word of a child and the address of a table", loadw(0x264, 0), WIDE, b"514"),
    ("the address of a table", loadw(0x265, 0), *only(624)),
    ("its second byte", loadb(0x266, 0), *only(112)),
    ("a word of that and attributes", loadw(0x266, 0), WIDE, b"28672"),
    ("the address of the last table", loadw(0x26E, 0), *only(633)),
    ("a word of that and the first table", loadw(0x26F, 0), *only(30977)),
    # property tables
    ("the length of a name", loadb(0x270, 0), *only(1)),
    ("a name", loadw(0x271, 0), *only(-26459)),
    ("a size byte", loadb(0x273, 0), *only(5)),
    ("the data of a property", loadb(0x274, 0), BYTE, b"7"),
    ("frozen data", loadb(0x274, 0), *only(7), *frozen(FIVE)),
    ("data beside frozen ones", loadb(0x274, 0), BYTE, b"7", *frozen(THREE)),
    ("a size byte behind data", loadb(0x275, 0), *only(35)),
    ("a word of a size byte and data", loadw(0x273, 0), WIDE, b"1287"),
    ("a word of a size byte and frozen data", loadw(0x273, 0), *only(1287), *frozen(FIVE)),
    ("a word of data and a size byte", loadw(0x274, 0), WIDE, b"1827"),
    ("a word of frozen data and a size byte", loadw(0x274, 0), *only(1827), *frozen(FIVE)),
    ("a word of data", loadw(0x276, 0), WIDE, b"4660"),
    ("a word of frozen data", loadw(0x276, 0), *only(4660), *frozen(THREE)),
    ("a word whose high byte is frozen", loadw(0x276, 0), WIDE, b"4660", *frozen((0x276, 0x276))),
    ("a word whose low byte is frozen", loadw(0x276, 0), WIDE, b"4660", *frozen((0x277, 0x277))),
    ("a frozen high byte", loadb(0x276, 0), *only(18), *frozen((0x276, 0x276))),
    ("a byte behind a frozen one", loadb(0x277, 0), BYTE, b"52", *frozen((0x276, 0x276))),
    ("a word of data and the end of a list", loadw(0x277, 0), WIDE, b"13312"),
    ("a word of frozen data and the end of a list", loadw(0x277, 0), *only(13312), *frozen(THREE)),
    ("the end of a list", loadb(0x278, 0), *only(0)),
    ("a word of that and the next table", loadw(0x278, 0), *only(1)),
    ("the end of an empty list", loadb(0x27C, 0), *only(0)),
    ("a word of that and a free byte", loadw(0x27C, 0), WIDE, b"0"),
    # free bytes
    ("the first free byte", loadb(0x27D, 0), BYTE, b"0"),
    ("a free byte", loadb(0x280, 0), BYTE, b"10"),
    ("a frozen byte", loadb(0x280, 0), *only(10), *frozen((0x280, 0x280))),
    ("a free word", loadw(0x280, 0), WIDE, b"2560"),
    ("a frozen word", loadw(0x280, 0), *only(2560), *frozen((0x280, 0x281))),
    ("a word before whose end what is frozen begins", loadw(0x27F, 0), WIDE, b"10", *frozen((0x280, 0x281))),
    ("a word behind whose beginning what is frozen ends", loadw(0x281, 0), WIDE, b"0", *frozen((0x280, 0x281))),
    ("a word between two frozen bytes", loadw(0x280, 0), WIDE, b"2560", *frozen((0x27F, 0x27F), (0x282, 0x282))),
    ("the last byte of dynamic memory", loadb(0x299, 0), BYTE, b"0"),
    ("a word of that and static memory", loadw(0x299, 0), WIDE, b"1"),
    ("the same, frozen", loadw(0x299, 0), *only(1), *frozen((0x299, 0x299))),
    # any of some, where what lies between the indices of words counts, too
    ("any of three words", loadw(0x361, G), (-27483, 9620), b"6949", UP_TO_TWO),
    ("any of two words, of which what lies between is the greatest", loadw(0x361, G), (-27483, 9620), b"-27483", first(1, 0, 1)),
    ("any of two words, of which what lies between is the least", loadw(0x368, G), (-27456, 18068), b"18068", first(0, 0, 1)),
    ("a word of one known index", loadw(0x361, G), *only(-27483), first(1, 1, 1)),
    ("any of four bytes", loadb(0x361, G), (27, 165), b"148", first(2, 0, 3)),
    ("any of three arrays of words", loadw(G, 0), (-27483, 9620), b"6949", first(0x361, 0x361, 0x363)),
    ("any of three arrays of bytes", loadb(G, 0), (27, 148), b"37", first(0x362, 0x361, 0x363)),
    ("any sum of bytes", loadb(G, G), (37, 165), b"37", first(0x1B1, 0x1B1, 0x1B2)),
    ("any sum of words", loadw(G, H), (-27483, 9620), b"-27483", both((0x361, 0x361, 0x362), (1, 0, 1))),
    ("a byte at a negative index", loadb(0x364, -3), *only(27)),
    ("a word at a negative index", loadw(0x365, -2), *only(6949)),
    ("any byte at a negative index", loadb(0x364, G), (27, 148), b"148", first(-1, -3, -1)),
    ("any word at a negative index", loadw(0x365, G), (-27483, 9620), b"6949", first(-2, -2, -1)),
    ("any word at an index about 0", loadw(0x363, G), (-27483, 9620), b"-27483", first(0, -1, 1)),
    ("a byte of a negative array", loadb(-1, 0x362), *only(27)),
    ("a word of a negative array", loadw(-2, 0x1B2), *only(9620)),
    ("any byte of a negative array", loadb(G, 0x363), (27, 37), b"27", first(-2, -2, -1)),
    ("any byte of an array about 0", loadb(G, 2), (0, 3), b"3", first(-2, -2, 1)),
    ("the least index of words", loadw(0x361, -32768), *only(6949)),
    ("the greatest index of words", loadw(0x363, 32767), *only(6949)),
    ("a sum of 65,536", loadb(0xFFF0, 0x10), *only(3)),
    ("a sum of 65,536, of words", loadw(0xFFF0, 8), *only(768)),
    ("any sum from 65,536 on", loadw(0xFFF0, G), (0, 768), b"768", first(8, 8, 9)),
    # where what is fixed ends
    ("bytes before Flags 2", loadb(0, G), (2, 154), b"2", first(14, 14, 15)),
    ("bytes into Flags 2", loadb(0, G), BYTE, b"2", first(14, 14, 16)),
    ("bytes over Flags 2", loadb(0, G), BYTE, b"154", first(15, 15, 18)),
    ("bytes behind Flags 2", loadb(0, G), (50, 54), b"50", first(18, 18, 19)),
    ("words before Flags 2", loadw(0, G), (64, 16386), b"64", first(6, 6, 7)),
    ("words into Flags 2", loadw(1, G), WIDE, b"16386", first(6, 6, 7)),
    ("defaults", loadb(0x25C, G), *only(0), first(0, 0, 1)),
    ("defaults and attributes", loadb(0x25C, G), BYTE, b"0", UP_TO_TWO),
    ("both bytes of an address", loadb(0x265, G), (2, 112), b"2", first(0, 0, 1)),
    ("an entry's address and up to that of the next", loadb(0x265, G), BYTE, b"2", UP_TO_NINE),
    ("an address and a table up to its data", loadb(0x26E, G), (1, 165), b"2", first(0, 0, 5)),
    ("the same, into data", loadb(0x26E, G), BYTE, b"2", first(0, 0, 6)),
    ("the same, into frozen data", loadb(0x26E, G), (1, 165), b"2", first(0, 0, 6), NONE, [FIVE]),
    ("both tables, of which data aren't frozen", loadb(0x26E, G), BYTE, b"2", first(0, 0, 14), NONE, [FIVE]),
    ("both tables, frozen", loadb(0x26E, G), (0, 165), b"2", first(0, 0, 14), NONE, [FIVE, THREE]),
    ("both tables, frozen, and a free byte", loadb(0x26E, G), BYTE, b"2", first(0, 0, 15), NONE, [FIVE, THREE]),
    ("frozen bytes", loadb(0x280, G), (0, 10), b"10", UP_TO_TWO, NONE, [(0x280, 0x282)]),
    ("bytes of which the middle one isn't frozen", loadb(0x280, G), BYTE, b"10", UP_TO_TWO, NONE, [(0x280, 0x280), (0x282, 0x282)]),
    ("a table's end, all that is free, frozen, and static memory", loadb(0x27C, G), (0, 10), b"0", first(0, 0, 30), NONE, [FREE]),
    # the end of memory is at 37C, and 37A where the index is a variable
    ("the last byte", loadb(0x37B, 0), *only(0)),
    ("the last word", loadw(0x37A, 0), *only(-17920)),
    ("any byte up to the last", loadb(0x378, G), (0, 186), b"0", first(0, 0, 1)),
    ("any word up to the last", loadw(0x376, G), (-16640, 186), b"-6465", first(0, 0, 1)),
]

# ---- the same of a story whose dynamic memory ends at 9000, so that it has the abbreviations and what was the dictionary. Object 2
# has its table, 00, 01 09, 00, at 8100

# the last abbreviation is the text aaaaaaa at 400
LONGER = {**bytes_at(0x358, word(0x200)), **bytes_at(0x400, b"\x18\xc6\x18\xc6\x98\xa5")}
AT_7FFF, FROZEN_7FFF = bytes_at(0x7FFF, b"\5\6\5\7"), [(0x7FFF, 0x8002)]

HIGH_RESULTS = [
    ("a byte at a high address", loadb(0x9000, 1), *only(4)),
    ("a word at a high address", loadw(0x9000, 0), *only(4)),
    ("the byte before the abbreviations", loadb(0x299, 0), BYTE, b"0"),
    ("a word of that and an abbreviation", loadw(0x299, 0), WIDE, b"1"),
    ("the first abbreviation", loadw(0x29A, 0), *only(429)),
    ("the last abbreviation", loadw(0x29A, 95), *only(429)),
    ("a text of an abbreviation", loadw(0x35A, 0), *only(-27483)),
    ("a word of the end of a text and what is behind", loadw(0x35B, 0), WIDE, b"-23295"),
    ("the byte behind a text", loadb(0x35C, 0), BYTE, b"1"),
    ("all of the abbreviations", loadb(0x29A, G), (1, 173), b"1", first(0, 0, 193)),
    ("all of the abbreviations, and a byte", loadb(0x29A, G), BYTE, b"1", first(0, 0, 194)),
    ("all words of the abbreviations", loadw(0x29A, G), (-27483, 429), b"429", first(0, 0, 96)),
    ("the last word of a longer text", loadw(0x404, 0), *only(-26459), NONE, LONGER),
    ("a word that a longer text begins in", loadw(0x3FF, 0), WIDE, b"24", NONE, LONGER),
    ("a word that a longer text ends in", loadw(0x405, 0), WIDE, b"-23296", NONE, LONGER),
    ("the byte behind a longer text", loadb(0x406, 0), BYTE, b"0", NONE, LONGER),
    ("what was a name", loadb(0x27A, 0), BYTE, b"156"),
    ("a size byte at a high address", loadb(0x8101, 0), *only(1)),
    ("data at a high address", loadb(0x8102, 0), BYTE, b"9"),
    ("frozen data at a high address", loadb(0x8102, 0), *only(9), *frozen((0x8102, 0x8102))),
    ("the last of many free bytes", loadb(0x8FFF, 0), BYTE, b"0"),
    ("a word of that and the dictionary", loadw(0x8FFF, 0), WIDE, b"0"),
    ("the same, of a high address, frozen", loadw(0x8FFF, 0), *only(0), *frozen((0x8FFF, 0x8FFF))),
    ("bytes from a low address to a high one", loadb(0x7FFF, G), (5, 6), b"5", first(0, 0, 1), AT_7FFF, FROZEN_7FFF),
    ("words from a low address to a high one", loadw(0x7FFF, G), (1286, 1541), b"1286", first(0, 0, 1), AT_7FFF, FROZEN_7FFF),
    ("bytes of some high arrays", loadb(G, 1), (0, 9), b"9", first(-32511, -32512, -32510), NONE, [(0x8102, 0x8102)]),
]

# ---- the same of a story of 66,560 bytes, which are 0 behind the code

TOP = bytes_at(0xFFFE, b"\x12\x34")
ANY_WORD = (0, -32768, 32767)

LONG_RESULTS = [
    ("the byte at 65,535", loadb(0xFFFF, 0), *only(52), NONE, TOP),
    ("the word at 65,534", loadw(0xFFFE, 0), *only(4660), NONE, TOP),
    ("a byte at index -1 of 0", loadb(0, -1), *only(52), NONE, TOP),
    ("a word at index -1 of 0", loadw(0, -1), *only(4660), NONE, TOP),
    ("a word at the greatest index of 0", loadw(0, 32767), *only(4660), NONE, TOP),
    ("words up to that at 65,534", loadw(G, 0), (0, 4660), b"18", first(-3, -4, -2), TOP),
    ("bytes on both sides of 0", loadb(G, 0), (3, 52), b"52", first(-1, -1, 0), TOP),
    ("bytes on both sides of 65,536", loadb(0xFFFE, G), (0, 52), b"3", first(2, 0, 3), TOP),
    ("the same, up to Flags 2", loadb(0xFFFF, G), (0, 154), b"52", first(0, 0, 16), TOP),
    ("the same, into Flags 2", loadb(0xFFFF, G), BYTE, b"52", first(0, 0, 17), TOP),
    ("any byte", loadb(G, 0), BYTE, b"3", {16: ANY_WORD}),
    ("any byte, by any two words", loadb(G, H), BYTE, b"3", both(ANY_WORD, ANY_WORD)),
    ("any byte, by 65,537 sums", loadb(G, H), BYTE, b"3", both(ANY_WORD, (0, 0, 1))),
    ("any byte of half of memory", loadb(0x29A, G), (0, 230), b"1", first(0, 0, 32767)),
    ("any word of half of memory", loadw(G, 0), (-32768, 128), b"-32768", first(-16384, -32768, -2), {0xC000: 0x80}),
]


# ---- loads whose ends lie within blocks of 256 bytes, or at their ends: from where to where the array may be. A byte is 200, and 0
# are all about it: a word has it as its high byte, or as its low one.

BLOCKS = [(0x4000, 0x40FF), (0x4000, 0x4100), (0x40FF, 0x4100), (0x4001, 0x40FE), (0x40FF, 0x4200), (0x4080, 0x4380)]
BLOCKS += [(0x4000, 0x43FF)]

MARKED = [
    ("before bytes", loadb(G, 0), lambda lower, upper: lower - 1, (0, 0)),
    ("at the first of bytes", loadb(G, 0), lambda lower, upper: lower, (0, 200)),
    ("within bytes", loadb(G, 0), lambda lower, upper: (lower + upper + 1) // 2, (0, 200)),
    ("at the last of bytes", loadb(G, 0), lambda lower, upper: upper, (0, 200)),
    ("behind bytes", loadb(G, 0), lambda lower, upper: upper + 1, (0, 0)),
    ("before words", loadw(G, 0), lambda lower, upper: lower - 1, (0, 0)),
    ("at the first of words", loadw(G, 0), lambda lower, upper: lower, (-14336, 0)),
    ("within words", loadw(G, 0), lambda lower, upper: (lower + upper + 1) // 2, (-14336, 200)),
    ("in the last of words", loadw(G, 0), lambda lower, upper: upper + 1, (0, 200)),
    ("behind words", loadw(G, 0), lambda lower, upper: upper + 2, (0, 0)),
]

# loads and stores of the same, where this alone is frozen: the instruction, from where to where its result is stated, and the rule
# that is broken, if any

FREEZING = [
    ("bytes, all frozen", loadb(G, 0), (0, 0), lambda lower, upper: (lower, upper), None),
    ("bytes, frozen but the first", loadb(G, 0), (0, 0), lambda lower, upper: (lower + 1, upper), "I4"),
    ("bytes, frozen but the last", loadb(G, 0), (0, 0), lambda lower, upper: (lower, upper - 1), "I4"),
    ("words, all frozen", loadw(G, 0), (0, 0), lambda lower, upper: (lower, upper + 1), None),
    ("words, frozen but the first byte", loadw(G, 0), (0, 0), lambda lower, upper: (lower + 1, upper + 1), "I4"),
    ("words, frozen but the last byte", loadw(G, 0), (0, 0), lambda lower, upper: (lower, upper), "I4"),
    ("a store of bytes behind a frozen one", storeb(G, 0, 9), None, lambda lower, upper: (lower - 1, lower - 1), None),
    ("a store of bytes, the first frozen", storeb(G, 0, 9), None, lambda lower, upper: (lower, lower), "I9"),
    ("a store of bytes, one within frozen", storeb(G, 0, 9), None, lambda lower, upper: ((lower + upper + 1) // 2,) * 2, "I9"),
    ("a store of bytes, the last frozen", storeb(G, 0, 9), None, lambda lower, upper: (upper, upper), "I9"),
    ("a store of bytes before a frozen one", storeb(G, 0, 9), None, lambda lower, upper: (upper + 1, upper + 1), None),
    ("a store of words behind a frozen byte", storew(G, 0, 9), None, lambda lower, upper: (lower - 1, lower - 1), None),
    ("a store of words, the first byte frozen", storew(G, 0, 9), None, lambda lower, upper: (lower, lower), "I9"),
    ("a store of words, the last byte frozen", storew(G, 0, 9), None, lambda lower, upper: (upper + 1, upper + 1), "I9"),
    ("a store of words before a frozen byte", storew(G, 0, 9), None, lambda lower, upper: (upper + 2, upper + 2), None),
]

# ---- stores: the store, what is asked behind it, from where to where that may be, what is printed, and the rest as of results

HOLE = (0x282, 0x282)

STORED = [
    ("a byte", storeb(0x281, 0, 9), loadb(0x281, 0), BYTE, b"9"),
    ("a byte takes the low byte", storeb(0x281, 0, 300), loadb(0x281, 0), BYTE, b"44"),
    ("a byte takes 255 of -1", storeb(0x281, 0, -1), loadb(0x281, 0), BYTE, b"255"),
    ("the byte before it stays", storeb(0x281, 0, -1), loadb(0x280, 0), BYTE, b"10"),
    ("the byte behind it stays", storeb(0x281, 0, -1), loadb(0x282, 0), BYTE, b"5", NONE, {0x282: 5}),
    ("a word", storew(0x281, 0, -2), loadw(0x281, 0), WIDE, b"-2"),
    ("its high byte comes first", storew(0x281, 0, 0x1234), loadb(0x281, 0), BYTE, b"18"),
    ("its low byte comes second", storew(0x281, 0, 0x1234), loadb(0x282, 0), BYTE, b"52"),
    ("the byte before a word stays", storew(0x281, 0, -1), loadb(0x280, 0), BYTE, b"10"),
    ("the byte behind a word stays", storew(0x281, 0, -1), loadb(0x283, 0), BYTE, b"5", NONE, {0x283: 5}),
    ("an index of words counts twice", storew(0x27D, 2, 7), loadb(0x282, 0), BYTE, b"7"),
    ("an index of bytes counts once", storeb(0x27D, 4, 7), loadb(0x281, 0), BYTE, b"7"),
    ("a negative index", storeb(0x284, -2, 7), loadb(0x282, 0), BYTE, b"7"),
    ("a negative index of words", storew(0x285, -2, 7), loadb(0x282, 0), BYTE, b"7"),
    ("a negative array", storeb(-1, 0x282, 7), loadb(0x281, 0), BYTE, b"7"),
    ("the least index of words", storew(0x281, -32768, 7), loadb(0x282, 0), BYTE, b"7"),
    ("the greatest index of words", storew(0x283, 32767, 7), loadb(0x282, 0), BYTE, b"7"),
    ("small constants", b"\xe2\x57\x10\x01\x07", loadb(0x11, 0), BYTE, b"7"),
    ("Flags 2", storew(0x10, 0, 0x102), loadw(0x10, 0), WIDE, b"258"),
    ("Flags 2 by an index of words", storew(0, 8, 5), loadb(0x11, 0), BYTE, b"5"),
    ("the first byte of Flags 2", storeb(0x10, 0, 3), loadw(0x10, 0), WIDE, b"768"),
    ("the second byte of Flags 2", storeb(0x11, 0, 3), loadw(0x10, 0), WIDE, b"3"),
    ("Flags 2 by a sum above 65,536", storeb(0xFFF0, 0x21, 4), loadb(0x11, 0), BYTE, b"4"),
    ("either byte of Flags 2, by such a sum", storeb(0xFFFF, G, 4), loadb(0x11, 0), BYTE, b"4", first(0x12, 0x11, 0x12)),
    ("the data of a property", storeb(0x274, 0, 8), GET_1_5, BYTE, b"8"),
    ("a word of data", storew(0x276, 0, -9), GET_1_3, WIDE, b"-9"),
    ("the low byte of data", storeb(0x277, 0, 0), GET_1_3, WIDE, b"4608"),
    ("either byte of data", storeb(0x276, G, 0), GET_1_3, WIDE, b"52", first(0, 0, 1)),
    ("the first free byte", storeb(0x27D, 0, 6), loadb(0x27D, 0), BYTE, b"6"),
    ("the first free word", storew(0x27D, 0, 6), loadb(0x27E, 0), BYTE, b"6"),
    ("the last byte of dynamic memory", storeb(0x299, 0, 6), loadb(0x299, 0), BYTE, b"6"),
    ("the last word of dynamic memory", storew(0x298, 0, 6), loadb(0x299, 0), BYTE, b"6"),
    ("a byte before what is frozen", storeb(0x281, 0, 6), loadb(0x281, 0), BYTE, b"6", *frozen(HOLE)),
    ("a byte behind what is frozen", storeb(0x283, 0, 6), loadb(0x283, 0), BYTE, b"6", *frozen(HOLE)),
    ("a word before what is frozen", storew(0x280, 0, 6), loadb(0x281, 0), BYTE, b"6", *frozen(HOLE)),
    ("a word behind what is frozen", storew(0x283, 0, 6), loadb(0x284, 0), BYTE, b"6", *frozen(HOLE)),
    ("what is frozen stays", storew(0x280, 0, -1), loadb(0x282, 0), *only(0), *frozen(HOLE)),
    ("data beside frozen ones", storeb(0x274, 0, 8), GET_1_5, BYTE, b"8", *frozen(THREE)),
    ("the low byte of what a global has", storeb(0x281, 0, G), loadb(0x281, 0), BYTE, b"44", first(300, 0, 300)),
    ("any free byte", storeb(0x27D, G, 9), loadb(0x281, 0), BYTE, b"9", first(4, 0, 28)),
    ("any free word", storew(0x27E, G, 9), loadb(0x283, 0), BYTE, b"9", first(2, 0, 13)),
    ("any free byte by a negative index", storeb(0x29A, G, 9), loadb(0x281, 0), BYTE, b"9", first(-25, -29, -1)),
    ("any free array", storew(G, 0, 9), loadb(0x282, 0), BYTE, b"9", first(0x281, 0x27D, 0x298)),
]

HIGH_STORED = [
    ("a byte before the abbreviations", storeb(0x299, 0, 6), loadb(0x299, 0), BYTE, b"6"),
    ("a byte behind a text", storeb(0x35C, 0, 6), loadb(0x35C, 0), BYTE, b"6"),
    ("a word behind a text", storew(0x35C, 0, 6), loadb(0x35D, 0), BYTE, b"6"),
    ("a byte behind a longer text", storeb(0x406, 0, 6), loadb(0x406, 0), BYTE, b"6", NONE, LONGER),
    ("a word before a longer text", storew(0x3FE, 0, 6), loadb(0x3FF, 0), BYTE, b"6", NONE, LONGER),
    ("a byte that was a name's", storeb(0x27A, 0, 6), loadb(0x27A, 0), BYTE, b"6"),
    ("data at a high address", storeb(0x8102, 0, 6), loadb(0x8102, 0), BYTE, b"6"),
    ("a word before a table", storew(0x80FE, 0, 6), loadb(0x80FF, 0), BYTE, b"6"),
    ("a byte behind a table", storeb(0x8104, 0, 6), loadb(0x8104, 0), BYTE, b"6"),
    ("the last of many free words", storew(0x8FFE, 0, 6), loadb(0x8FFF, 0), BYTE, b"6"),
    ("a word from a low address to a high one", storew(0x7FFF, 0, 0x607), loadb(0x8000, 0), BYTE, b"7"),
    ("any of many bytes", storeb(0x35C, G, 6), loadb(0x400, 0), BYTE, b"6", first(0xA4, 0, 0x7DA3)),
    ("any of many words", storew(0x35C, G, 6), loadb(0x401, 0), BYTE, b"6", first(0x52, 0, 0x3ED1)),
]

# ---- plays: the instructions, each with the slots of its stack, what is printed, what is known of globals

PUSH_27D = b"\xe8\x3f\x02\x7d"

PLAYS = [
    (
        "the array is popped before the index",
        [PUSH + b"\x05", (PUSH + b"\x04", slots(5)), (loadw(STACK, STACK), slots(5, 4)), (PRINT_TOP, slots(666)), QUIT],
        b"666",
    ),
    ("an index is popped", [PUSH + b"\x01", (loadb(0x35C, STACK), slots(1)), (PRINT_TOP, slots(44)), QUIT], b"44"),
    ("an array is popped", [PUSH + b"\x0e", (loadw(STACK, 0), slots(14)), (PRINT_TOP, slots(666)), QUIT], b"666"),
    (
        "what is below a result stays",
        [PUSH + b"\x03", (loadb(0x35C, 1), slots(3)), (PRINT_TOP, slots(3, 44)), (PRINT_TOP, slots(3)), QUIT],
        b"443",
    ),
    (
        "array, index and value are popped, of words",
        [
            PUSH + b"\x09",
            (PUSH + b"\x02", slots(9)),
            (PUSH_27D, slots(9, 2)),
            (storew(STACK, STACK, STACK), slots(9, 2, 0x27D)),
            *pushing(loadb(0x282, 0), BYTE),
        ],
        b"9",
    ),
    (
        "array, index and value are popped, of bytes",
        [
            PUSH + b"\x09",
            (PUSH + b"\x04", slots(9)),
            (PUSH_27D, slots(9, 4)),
            (storeb(STACK, STACK, STACK), slots(9, 4, 0x27D)),
            *pushing(loadb(0x281, 0), BYTE),
        ],
        b"9",
    ),
    ("a value is popped", [PUSH + b"\x09", (storeb(0x281, 0, STACK), slots(9)), *pushing(loadb(0x281, 0), BYTE)], b"9"),
    (
        "what is below stays where a store pops",
        [PUSH + b"\x03", (PUSH + b"\x09", slots(3)), (storeb(0x281, 0, STACK), slots(3, 9)), (PRINT_TOP, slots(3)), QUIT],
        b"3",
    ),
    ("a store gives nothing", [PUSH + b"\x03", (storew(0x281, 0, 9), slots(3)), (PRINT_TOP, slots(3)), QUIT], b"3"),
    ("a word for a global", [loadw(0x35C, 0, 17), PRINT_SECOND, QUIT], b"300", {17: (0, 0, 300)}),
    ("a byte for a global", [loadb(0x280, 0, 17), PRINT_SECOND, QUIT], b"10", {17: (0, 0, 255)}),
    ("an array that is loaded", [loadw(8, 0), (loadw(STACK, 0), slots(860)), (PRINT_TOP, slots(300)), QUIT], b"300"),
    ("a byte over a word", [storew(0x281, 0, 0x1234), storeb(0x282, 0, 0x56), *pushing(loadw(0x281, 0), WIDE)], b"4694"),
]

# ---- closed bytes: what the checked machine does where 9 is stored there, and global 16 is printed behind it

F11, F12 = fault("F11 at 00370"), fault("F12 at 00370")
SAYS_0 = printed(b"0")

# memory ends at 37C
CLOSED_BYTES = [
    *((place, F11) for place in (0x00, 0x01, 0x0E, 0x0F, 0x12, 0x13, 0x3E, 0x3F)),
    *((place, F11) for place in (0x29A, 0x29B, 0x359, 0x35A, 0x35C, 0x370, 0x37B, 0x37C, 0x7FFF, 0x8000, 0xFFFF)),
    (0x40, printed(b"2304")),
    (0x41, printed(b"9")),
    *((place, SAYS_0) for place in (0x42, 0x21F, 0x220, 0x25D)),
    *((place, SAYS_0) for place in (0x25E, 0x261, 0x262, 0x263, 0x264, 0x265, 0x266)),
    *((place, SAYS_0) for place in (0x267, 0x26A, 0x26B, 0x26C, 0x26D, 0x26E, 0x26F)),
    *((place, SAYS_0) for place in (0x270, 0x271, 0x272, 0x273, 0x275, 0x278, 0x279, 0x27A, 0x27B, 0x27C)),
]

# words of which a byte is closed
CLOSED_WORDS = [
    *((place, F11) for place in (0x00, 0x0E, 0x0F, 0x11, 0x12, 0x3E, 0x3F)),
    *((place, F11) for place in (0x299, 0x29A, 0x37A, 0x37B, 0x37C, 0x7FFF, 0xFFFE, 0xFFFF)),
    (0x40, printed(b"9")),
    *((place, SAYS_0) for place in (0x21E, 0x21F, 0x220, 0x25D, 0x264, 0x26D, 0x26F)),
    *((place, SAYS_0) for place in (0x272, 0x273, 0x274, 0x275, 0x277, 0x278, 0x27B, 0x27C)),
]

# in the story whose dynamic memory ends at 9000
HIGH_BYTES = [
    *((place, SAYS_0) for place in (0x29A, 0x29B, 0x358, 0x359, 0x35A, 0x35B, 0x8100, 0x8101, 0x8103)),
    *((place, fault("F11 at 09010")) for place in (0x9000, 0x9010, 0xFFFF)),
]
HIGH_WORDS = [
    *((place, SAYS_0) for place in (0x299, 0x35A, 0x35B, 0x80FF, 0x8101, 0x8102, 0x8103)),
    *((place, fault("F11 at 09010")) for place in (0x8FFF, 0x9000, 0xFFFF)),
]
LONGER_BYTES = [(place, SAYS_0) for place in (0x400, 0x401, 0x403, 0x404, 0x405)]
LONGER_WORDS = [(place, SAYS_0) for place in (0x3FF, 0x404, 0x405)]

# stores that I9 refuses: the store, what the checked machine does, and the rest as of results

CLOSED = [
    ("a frozen byte", storeb(0x282, 0, 9), SAYS_0, *frozen(HOLE)),
    ("a word whose high byte is frozen", storew(0x282, 0, 9), SAYS_0, *frozen(HOLE)),
    ("a word whose low byte is frozen", storew(0x281, 0, 9), SAYS_0, *frozen(HOLE)),
    ("frozen data", storeb(0x274, 0, 9), SAYS_0, *frozen(FIVE)),
    ("the second of frozen data", storeb(0x277, 0, 9), SAYS_0, *frozen(FIVE, THREE)),
    ("the last frozen byte", storeb(0x299, 0, 9), SAYS_0, *frozen(FREE)),
    ("open bytes on both sides of a size byte", storeb(0x274, G, 9), SAYS_0, UP_TO_TWO),
    ("open bytes on both sides of a frozen one", storeb(0x281, G, 9), SAYS_0, UP_TO_TWO, NONE, [HOLE]),
    ("open words on both sides of a frozen byte", storew(0x280, G, 9), SAYS_0, UP_TO_TWO, NONE, [HOLE]),
    ("open words, between which one goes into a frozen byte", storew(0x27D, G, 9), SAYS_0, UP_TO_NINE, NONE, [(0x281, 0x281)]),
    ("free bytes from the end of a table on", storeb(0x27D, G, 9), SAYS_0, first(0, -1, 28)),
    ("free bytes up to static memory", storeb(0x27D, G, 9), SAYS_0, first(0, 0, 29)),
    ("free words into static memory", storew(0x27D, G, 9), SAYS_0, first(0, 0, 14)),
    ("free arrays up to static memory", storeb(G, 0, 9), printed(b"641"), first(0x281, 0x27D, 0x29A)),
    ("Flags 2 and the byte before", storeb(0xFFFF, G, 9), printed(b"17"), first(0x11, 0x10, 0x12)),
    ("Flags 2 and the byte behind", storeb(0, G, 9), printed(b"16"), first(16, 16, 18)),
    ("Flags 2 from -1 on", storeb(G, 0, 9), printed(b"16"), first(16, -1, 17)),
    ("any byte", storeb(G, 0, 9), printed(b"640"), {16: (0x280, -32768, 32767)}),
]

HIGH_CLOSED = [
    ("open words on both sides of 65,536", storew(0x400, G, 9), SAYS_0, first(0, 0, 32767)),
    ("any byte, from an open one on", storeb(G, 0, 9), printed(b"1024"), {16: (0x400, -32768, 32767)}),
    ("65,537 sums from that of an open byte on", storeb(G, H, 9), printed(b"1024"), both((0x400, -32768, 32767), (0, 0, 1))),
    ("65,537 sums from that of an open word on", storew(G, H, 9), printed(b"1024"), both((0x400, 0x400, 0x402), (0, 0, 32767))),
    ("131,073 sums from that of an open word on", storew(G, H, 9), printed(b"1024"), both((0x400, 0x400, 0x402), ANY_WORD)),
    ("many free bytes and a text's last", storeb(0x35B, G, 9), printed(b"165"), first(0xA5, 0, 0x7DA4)),
    ("many free bytes and the first of a table", storeb(0x35C, G, 9), printed(b"164"), first(0xA4, 0, 0x7DA4)),
    ("many free words and the first of a table", storew(0x35D, G, 9), printed(b"82"), first(0x52, 0, 0x3ED1)),
    ("many free bytes on both sides of a longer text", storeb(0x35C, G, 9), SAYS_0, first(0, 0, 0x100), LONGER),
]

# ---- loads that I10 refuses, of a story that ends at 37C, or at 37A where an operand is a variable: the instruction, from where to
# where its result is stated, what the checked machine does, and the rest as of results

THREE_ARRAYS = (0x370, 0x370, 0x372)

UNREADABLE = [
    ("a byte behind memory", loadb(0x37C, 0), BYTE, F12),
    ("a byte far behind memory", loadb(0x8000, 0), BYTE, F12),
    ("a byte at 65,535, which isn't there", loadb(-1, 0), BYTE, F12),
    ("a word behind memory", loadw(0x37C, 0), WIDE, F12),
    ("a word whose second byte is behind memory", loadw(0x37B, 0), WIDE, F12),
    ("a word at 65,535", loadw(-1, 0), WIDE, F12),
    ("a word at 65,535, by its index", loadw(0x0F, -8), WIDE, F12),
    ("bytes up to behind memory", loadb(0x370, G), BYTE, printed(b"208"), first(0, 0, 10)),
    ("words up to behind memory", loadw(0x371, G), WIDE, printed(b"12035"), first(0, 0, 4)),
    ("bytes from 65,535 on", loadb(G, 0), BYTE, printed(b"3"), first(0, -1, 0)),
    ("bytes from index -1 on", loadb(0, G), BYTE, printed(b"3"), first(0, -1, 0)),
    ("words on both sides of what can't be read", loadw(0x10, G), WIDE, SAYS_0, first(0, 0, 32767)),
    ("65,537 sums from that of a word that is there on", loadw(G, H), WIDE, printed(b"-12369"), both(THREE_ARRAYS, (0, 0, 32767))),
    ("131,073 sums from that of a word that is there on", loadw(G, H), WIDE, printed(b"-12369"), both(THREE_ARRAYS, ANY_WORD)),
    ("a byte behind memory, whatever is stated", loadb(0x37C, 0), (9, 9), F12),
    ("a word behind memory, whatever is stated", loadw(0x37C, 0), (9, 9), F12),
    ("a byte behind memory, for a global that may be 0 alone", loadb(0x37C, 0, 17), None, F12),
]

LONG_UNREADABLE = [
    ("a word at 65,535, whose first byte is there", loadw(-1, 0), WIDE, F12),
    ("words at 65,534 and 0, between which is that at 65,535", loadw(0xFFFE, G), WIDE, printed(b"768"), first(1, 0, 1)),
    ("words up to that at 65,535", loadw(G, 0), WIDE, SAYS_0, first(-3, -3, -1)),
    ("any word", loadw(G, 0), WIDE, printed(b"768"), {16: ANY_WORD}),
]

# ---- refused by other rules, or at other places: the instructions, the rule, what the checked machine does, what is known of
# globals

F2, F4, F5 = fault("F2 at 00370"), fault("F4 at 00370"), fault("F5 at 00370")
TO_299, TO_254 = {17: (0, 0, 299)}, {17: (0, 0, 254)}
FULL = [(PUSH + b"\x01", slots(1) * it) for it in range(64)]

REFUSED = [
    ("a load of one operand", [b"\xcf\x7f\x02\x00", QUIT], "I1 at 00370", F2),
    ("a load of three operands", [b"\xd0\x57\x02\x00\x00\x00", QUIT], "I1 at 00370", F2),
    ("a store of two operands", [b"\xe1\x1f\x02\x81\x00", QUIT], "I1 at 00370", F2),
    ("a store of four operands", [b"\xe2\x15\x02\x81\x00\x00\x00", QUIT], "I1 at 00370", F2),
    ("an array off an empty stack", pushing(loadw(STACK, 0), WIDE), "I2 at 00370", F4),
    ("an index off an empty stack", pushing(loadb(0x280, STACK), BYTE), "I2 at 00370", F4),
    (
        "array and index off a stack of one",
        [PUSH + b"\x05", (loadw(STACK, STACK), slots(5)), QUIT],
        "I2 at 00373",
        fault("F4 at 00373"),
    ),
    ("a store by an array off an empty stack", [storeb(STACK, 0, 9), QUIT], "I2 at 00370", F4),
    ("a store by an index off an empty stack", [storew(0x281, STACK, 9), QUIT], "I2 at 00370", F4),
    ("a store of a value off an empty stack", [storeb(0x281, 0, STACK), QUIT], "I2 at 00370", F4),
    (
        "all three off a stack of two",
        [PUSH + b"\x05", (PUSH + b"\x05", slots(5)), (storeb(STACK, STACK, STACK), slots(5, 5)), QUIT],
        "I2 at 00376",
        fault("F4 at 00376"),
    ),
    ("a store of a value off an empty stack, to a closed byte", [storeb(0, 0, STACK), QUIT], "I2 at 00370", F4),
    ("an array that is an absent local", pushing(loadb(LOCAL, 0), BYTE), "I3 at 00370", F5),
    ("an index that is an absent local", pushing(loadw(0x280, LOCAL), WIDE), "I3 at 00370", F5),
    ("a value that is an absent local", [storew(0x281, 0, LOCAL), QUIT], "I3 at 00370", F5),
    ("a result for an absent local", [loadb(0x280, 0, 1), QUIT], "I3 at 00370", F5),
    ("a byte behind memory, for an absent local", [loadb(0x37C, 0, 1), QUIT], "I3 at 00370", F12),
    ("a store to a closed byte, and nothing listed behind it", [storeb(0, 0, 9), (QUIT, UNLISTED)], "I4 at 00370", F11),
    ("a load behind memory, and nothing listed behind it", [loadb(0x37C, 0, 16), (QUIT, UNLISTED)], "I10 at 00370", F12),
    ("a load, and a stack without its result", [loadb(0x280, 0), QUIT], "I4 at 00370", printed(b"")),
    ("a store, and a stack with a result", [storeb(0x280, 0, 9), (QUIT, slots(9))], "I4 at 00370", printed(b"")),
    ("a word that a global may not be", [loadw(0x35C, 0, 17), PRINT_SECOND, QUIT], "I16 at 00370", printed(b"300"), TO_299),
    ("a byte that a global may not be", [loadb(0x280, 0, 17), PRINT_SECOND, QUIT], "I16 at 00370", printed(b"10"), TO_254),
    ("a result for a stack of 64", [*FULL, (loadb(0, 0), slots(1) * 64), (QUIT, UNLISTED)], "I17 at 00430", printed(b"")),
    (
        "a load behind memory, further on",
        [SAY_YES, NOP, loadw(-1, 0), (QUIT, interval(*WIDE))],
        "I10 at 00374",
        Answer(3, b"y", b"fault: F12 at 00374\n"),
    ),
    (
        "a store to a closed byte, further on",
        [SAY_YES, NOP, storew(0x0F, 0, 9), QUIT],
        "I9 at 00374",
        Answer(3, b"y", b"fault: F11 at 00374\n"),
    ),
    ("of two stores the first", [storeb(0x40, 0, 0), storeb(0, 0, 9), QUIT], "I9 at 00370", fault("F11 at 00378")),
    ("of a load and a store the first", [loadb(-1, 0, 16), storeb(0, 0, 9), QUIT], "I10 at 00370", F12),
    ("a global that is stored", [storeb(0x40, 0, 1), PRINT_FIRST, QUIT], "I9 at 00370", printed(b"256")),
    ("a parent that is stored", [storeb(0x26B, 0, 0), b"\x93\x02\x10", PRINT_FIRST, QUIT], "I9 at 00370", SAYS_0, first(1, 0, 2)),
    ("a default that is stored", [storew(0x220, 3, 8), b"\x11\x01\x04\x10", PRINT_FIRST, QUIT], "I9 at 00370", printed(b"8")),
    ("a size byte that is stored", [storeb(0x273, 0, 6), b"\x11\x01\x06\x10", PRINT_FIRST, QUIT], "I9 at 00370", printed(b"7")),
]


# ---- a loop that stores 0 to 8 from 281 on, by a local that is counted, and one that prints them from behind

FILL = b"\xe2\x2b\x02\x81\x01\x01"  # storeb 281 by local 1, what local 1 has
AGAIN, BACK = b"\x8c\xff\xf5", b"\x8c\xff\xf2"


def looping(last, ranges):
    """A story that calls a routine at 380, whose local counts up to this, and then down to 0, with what is frozen."""
    lines = [
        (FILL, (0, last)),
        (bytes([0x05, 0x01, last, 0xC5]), (0, last)),
        (AGAIN, (1, last)),
        (loadb(0x280, LOCAL), (1, last + 1)),
        (PRINT_TOP, (1, last + 1), interval(*BYTE)),
        (b"\x04\x01\x01\xc5", (1, last + 1)),
        (BACK, (1, last)),
        (b"\xb0", (0, 0)),
    ]
    lines = placed([(code, rest) for code, *rest in lines], 0x383)
    main = b"\xe0\x3f\x01\xc0\x00" + QUIT
    made = with_objects(main.ljust(16, b"\0") + b"\x01\0\0" + b"".join(code for _, code, _ in lines))
    stacks = {0x375: slots(1), **{at: b"".join(stack) for at, _, (_, *stack) in lines}}
    inside = {at: (1, interval(*local)) for at, _, (local, *_) in lines}
    routines = [(0x380, 1, (1, 1))]
    listed = certificate(made, [0x370, 0x375, *inside], stacks=stacks, ranges=ranges, routines=routines, inside=inside)
    return {"story": made, "certificate": listed}


# ---- all bytes that are open, and words of them; and all that are fixed, but the file's length and its sum, which hang on the code

OPEN = [0x10, 0x11, 0x274, 0x276, 0x277, *range(0x27D, 0x29A)]
OPEN_WORDS = [0x10, 0x276, *range(0x27D, 0x299)]

FIXED = [*range(0x10), *range(0x12, 0x1A), *range(0x1E, 0x40), *range(0x220, 0x25E), 0x265, 0x266]
FIXED += [*range(0x26E, 0x274), 0x275, *range(0x278, 0x27D), *range(0x29A, 0x370)]


def all_open():
    """A store to each open byte, and to each word of them."""
    return [storeb(place, 0, 9) for place in OPEN] + [storew(place, 0, 9) for place in OPEN_WORDS] + [QUIT]


def all_fixed():
    """A load of each fixed byte, which can be nothing else."""
    loaded = [[loadb(place, 0), (POP, slots(with_objects()[place]))] for place in FIXED]
    return [line for pair in loaded for line in pair] + [QUIT]


# ---- an abbreviation that is led to another text, and then printed

PRINT_ABBREVIATION = b"\xb2\x84\x05"
LED_ASTRAY = [storew(0x29A, 0, 0x200), PRINT_ABBREVIATION, QUIT]

# ---- a listing

LISTED = [loadw(0, 0, 16), loadb(0, 0, 16), storew(0, 0, 9), storeb(0, 0, 9), QUIT]
LISTING = b"00370 0 loadw\n00377 0 loadb\n0037e 0 storew\n00386 0 storeb\n0038e 0 quit\n"


def holding(making, lines, known, others, ranges):
    """A story of these instructions, with what is known of globals, and its certificate."""
    loaded = {}
    for number, (value, _, _) in known.items():
        loaded.update(bytes_at(0x40 + 2 * (number - 16), word(value % 65536)))
    return making(lines, {number: (lower, upper) for number, (_, lower, upper) in known.items()}, {**loaded, **others}, ranges)


def filled(end):
    """What makes a story of two objects that ends there."""

    def making(lines, values, others, ranges):
        length = sum(len(code) for _, code, _ in placed(lines))
        return files([*lines, (bytes(end - CODE - length), UNLISTED)], values, others, ranges)

    return making


LONG = filled(0x10400)


class Arrays(Plays):
    """Plays loads and stores on both machines, and counts."""

    def accepts(self, name, given):
        self.count.is_answer(name, self.program.run(["check", "story", "certificate"], given), printed(b"accepted\n"))

    def checked(self, name, given, rule, played):
        """Refused, and played all the same on the checked machine."""
        self.refuses(name, given, rule)
        self.count.is_answer(f"{name}, checked", self.play(given, []), played)

    def element(self, making, at, name, instruction, slot, text, known=NONE, others=NONE, ranges=()):
        of = lambda stated: holding(making, pushing(instruction, stated), known, others, ranges)
        self.answers(name, of(slot), printed(text))
        for tight in tighter(*slot):
            self.refuses(f"{name}, in {tight}", of(tight), f"I4 at {at:05x}")

    def stored(self, making, name, store, load, slot, text, known=NONE, others=NONE, ranges=()):
        self.answers(f"stored: {name}", holding(making, [store, *pushing(load, slot)], known, others, ranges), printed(text))

    def closed(self, making, at, name, store, played, known=NONE, others=NONE, ranges=()):
        given = holding(making, [store, PRINT_FIRST, QUIT], known, others, ranges)
        self.checked(f"closed: {name}", given, f"I9 at {at:05x}", played)

    def unreadable(self, making, name, instruction, slot, played, known=NONE, others=NONE, ranges=()):
        given = holding(making, pushing(instruction, slot), known, others, ranges)
        self.checked(f"unreadable: {name}", given, "I10 at 00370", played)

    def closed_places(self, making, at, byte_places, word_places, others=NONE):
        for place, played in byte_places:
            self.closed(making, at, f"byte {place:x}", storeb(place, 0, 9), played, NONE, others)
        for place, played in word_places:
            self.closed(making, at, f"word {place:x}", storew(place, 0, 9), played, NONE, others)

    def marked(self, ends, name, instruction, mark, slot):
        """One byte isn't 0."""
        of = lambda stated: holding(LONG, pushing(instruction, stated), first(ends[0], *ends), {mark(*ends): 200}, [])
        self.accepts(f"a mark {name} of {ends}", of(slot))
        for tight in tighter(*slot):
            self.refuses(f"a mark {name} of {ends}, in {tight}", of(tight), "I4 at 00370")

    def freezing(self, ends, name, instruction, slot, frozen, rule):
        given = holding(high, pushing(instruction, slot), first(ends[0], *ends), NONE, [frozen(*ends)])
        if rule:
            self.refuses(f"{name}, of {ends}", given, f"{rule} at {HIGH:05x}")
        else:
            self.accepts(f"{name}, of {ends}", given)

    def ends_of_memory(self):
        for end, last in [(0x10000, 0xFFFF), (0xFFFE, 0xFFFD), (0x8000, 0x7FFF)]:
            self.element(filled(end), CODE, f"the last byte of {end:x}", loadb(last, 0), *only(0))
            self.element(filled(end), CODE, f"the last word of {end:x}", loadw(last - 1, 0), *only(0))
            self.unreadable(filled(end), f"a word from the last byte of {end:x} on", loadw(last, 0), WIDE, F12)
        self.unreadable(filled(0xFFFE), "the byte behind 65,534", loadb(0xFFFE, 0), BYTE, F12)

    def loops(self):
        self.answers("a loop over an array", looping(8, []), printed(b"876543210"))
        self.answers("a loop up to what is frozen", looping(8, [(0x28A, 0x28A)]), printed(b"876543210"))
        self.checked("a loop into what is frozen", looping(9, [(0x28A, 0x28A)]), "I9 at 00383", printed(b"9876543210"))

    def alone(self):
        """What no table has."""
        self.answers("all open bytes and words", files(all_open()), printed(b""))
        self.answers("all fixed bytes", files(all_fixed()), printed(b""))
        self.checked("an abbreviation led astray", high(LED_ASTRAY, {}, LONGER, []), "I9 at 09010", printed(b"aaaaaaa"))
        self.count.is_answer("arrays, listed", self.program.run(["list", "story"], files(LISTED)), printed(LISTING))


def see_arrays(program, count):
    arrays = Arrays(program, count)
    for making, at, rows in [(files, CODE, RESULTS), (high, HIGH, HIGH_RESULTS), (LONG, CODE, LONG_RESULTS)]:
        for row in rows:
            arrays.element(making, at, *row)
    for ends in BLOCKS:
        for row in MARKED:
            arrays.marked(ends, *row)
        for row in FREEZING:
            arrays.freezing(ends, *row)
    for making, rows in [(files, STORED), (high, HIGH_STORED)]:
        for row in rows:
            arrays.stored(making, *row)
    for name, lines, text, *known in PLAYS:
        arrays.answers(name, holding(files, lines, *(known or [NONE]), NONE, []), printed(text))
    for making, at, rows in [(files, CODE, CLOSED), (high, HIGH, HIGH_CLOSED)]:
        for row in rows:
            arrays.closed(making, at, *row)
    arrays.closed_places(files, CODE, CLOSED_BYTES, CLOSED_WORDS)
    arrays.closed_places(high, HIGH, HIGH_BYTES, HIGH_WORDS)
    arrays.closed_places(high, HIGH, LONGER_BYTES, LONGER_WORDS, LONGER)
    for making, rows in [(files, UNREADABLE), (LONG, LONG_UNREADABLE)]:
        for row in rows:
            arrays.unreadable(making, *row)
    for name, lines, rule, played, *known in REFUSED:
        arrays.checked(name, holding(files, lines, *(known or [NONE]), NONE, []), rule, played)
    arrays.ends_of_memory()
    arrays.loops()
    arrays.alone()
