"""Runs of the opcodes that ask for properties and names of objects and change properties, on both machines. What is printed, and the
values that the certificates state, are worked out by hand after the standard, docs/MACHINE.md and docs/CERTIFICATE.md."""
from plays import ANY, PRINT_FIRST, PRINT_TOP, PUSH, QUIT, UNLISTED, ZERO, Plays, fault, placed, printed, slots, tighter
from program import Answer
from samples import certificate, changed, interval, with_objects, word

CODE, HIGH, MANY = 0x370, 0x9010, 0x90D0

# Object 1 is named a. Its property 5 has one byte, 7, at 274, and its property 3 has two, 4,660, at 276. Object 2 is named b and has no
# property. Defaults are 0.
FIVE, THREE = (0x274, 0x274), (0x276, 0x277)
LAST_OBJECT = 0x26E  # where the entry of object 2 has the address of its property table
NAME_2, LIST_2 = 0x279, 0x27C  # its table, and the list there

WIDE, BYTE = (-32768, 32767), (0, 255)
GET_1_5, GET_1_3, GET_2_1 = b"\x11\x01\x05\x00", b"\x11\x01\x03\x00", b"\x11\x02\x01\x00"


def default(number, value):
    """The bytes of a property's default."""
    return bytes_at(0x220 + 2 * (number - 1), word(value % 65536))


def bytes_at(place, piece):
    return {place + k: byte for k, byte in enumerate(piece)}


def first_is(number):
    """The bytes of global 16."""
    return bytes_at(0x40, word(number))


# object 2 has property 1 of so many bytes
def with_property(length):
    return bytes_at(LIST_2, bytes([32 * (length - 1) + 1, *range(0x11, 0x11 + length), 0]))


MINUS_2 = default(5, -2)
TRIPLE = with_property(3)

# ---- results: the instruction, bytes of the story that are others, what global 16 may be, what is frozen, from where to where the
# result may be, and what it is

RESULTS = [
    ("a byte", GET_1_5, {}, (0, 0), [], BYTE, b"7"),
    ("a frozen byte", GET_1_5, {}, (0, 0), [FIVE], (7, 7), b"7"),
    ("a byte beside a frozen one", GET_1_5, {}, (0, 0), [THREE], BYTE, b"7"),
    ("the greatest byte, frozen", GET_1_5, {0x274: 255}, (0, 0), [FIVE], (255, 255), b"255"),
    ("a word", GET_1_3, {}, (0, 0), [], WIDE, b"4660"),
    ("a frozen word", GET_1_3, {}, (0, 0), [THREE], (4660, 4660), b"4660"),
    ("a frozen word below 0", GET_1_3, {0x276: 0xFF, 0x277: 0xFD}, (0, 0), [THREE], (-3, -3), b"-3"),
    ("a word with a frozen high byte", GET_1_3, {}, (0, 0), [(0x276, 0x276)], WIDE, b"4660"),
    ("a word with a frozen low byte", GET_1_3, {}, (0, 0), [(0x277, 0x277)], WIDE, b"4660"),
    ("a default", b"\x11\x01\x09\x00", default(9, 300), (0, 0), [], (300, 300), b"300"),
    ("the first default", b"\x11\x01\x01\x00", default(1, -1), (0, 0), [], (-1, -1), b"-1"),
    ("the last default", b"\x11\x01\x1f\x00", default(31, 31), (0, 0), [], (31, 31), b"31"),
    ("the default of what another object has", b"\x11\x02\x05\x00", MINUS_2, (0, 0), [], (-2, -2), b"-2"),
    ("a frozen byte or a default", b"\x51\x10\x05\x00", {**MINUS_2, **first_is(1)}, (1, 2), [FIVE], (-2, 7), b"7"),
    ("a default or a frozen byte", b"\x51\x10\x05\x00", {**MINUS_2, **first_is(2)}, (1, 2), [FIVE], (-2, 7), b"-2"),
    ("a byte or a default", b"\x51\x10\x05\x00", {**MINUS_2, **first_is(1)}, (1, 2), [], (-2, 255), b"7"),
    ("a number of 3 to 5", b"\x31\x01\x10\x00", first_is(3), (3, 5), [FIVE, THREE], (0, 4660), b"4660"),
    ("a number of 4 or 5", b"\x31\x01\x10\x00", {**default(4, 9), **first_is(4)}, (4, 5), [FIVE], (7, 9), b"9"),
    ("any property of any object", b"\x71\x10\x10\x00", {**default(1, -5), **first_is(1)}, (1, 2), [], (-5, 0), b"-5"),
    ("the address of a byte", b"\x12\x01\x05\x00", {}, (0, 0), [], (628, 628), b"628"),
    ("the address of a word", b"\x12\x01\x03\x00", {}, (0, 0), [], (630, 630), b"630"),
    ("the address of a longer property", b"\x12\x02\x01\x00", TRIPLE, (0, 0), [], (637, 637), b"637"),
    ("the address of what isn't there", b"\x12\x01\x04\x00", {}, (0, 0), [], (0, 0), b"0"),
    ("the address of what another object has", b"\x12\x02\x05\x00", {}, (0, 0), [], (0, 0), b"0"),
    ("the address of property 0", b"\x12\x01\x00\x00", {}, (0, 0), [], (0, 0), b"0"),
    ("the address of property 37", b"\x12\x01\x25\x00", {}, (0, 0), [], (0, 0), b"0"),
    ("the address in one object or another", b"\x52\x10\x05\x00", first_is(1), (1, 2), [], (0, 628), b"628"),
    ("the addresses of 3 to 5", b"\x32\x01\x10\x00", first_is(3), (3, 5), [], (0, 630), b"630"),
    ("the address of any number", b"\x32\x01\x10\x00", {}, WIDE, [], (0, 630), b"0"),
    ("the first property", b"\x13\x01\x00\x00", {}, (0, 0), [], (0, 31), b"5"),
    ("the property behind 5", b"\x13\x01\x05\x00", {}, (0, 0), [], (0, 31), b"3"),
    ("none behind the last", b"\x13\x01\x03\x00", {}, (0, 0), [], (0, 31), b"0"),
    ("the first of none", b"\x13\x02\x00\x00", {}, (0, 0), [], (0, 31), b"0"),
    ("the first property of one object or another", b"\x53\x10\x00\x00", first_is(1), (1, 2), [], (0, 31), b"5"),
    ("the length of a byte", b"\x84\x02\x74\x00", {}, (0, 0), [], (0, 8), b"1"),
    ("the length of a word", b"\x84\x02\x76\x00", {}, (0, 0), [], (0, 8), b"2"),
    ("the greatest length", b"\x84\x02\x7d\x00", with_property(8), (0, 0), [], (0, 8), b"8"),
    ("the length at 0", b"\x94\x00\x00", {}, (0, 0), [], (0, 8), b"0"),
    ("the length at 1, by the first byte of all", b"\x94\x01\x00", {}, (0, 0), [], (0, 8), b"1"),
    ("the length by the last byte of all, BA", b"\x84\x03\x78\x00", {}, (0, 0), [], (0, 8), b"6"),
    ("the length at what may be 0", b"\xa4\x10\x00", {}, (0, 628), [], (0, 8), b"0"),
    ("the length at what may lie behind the last byte", b"\xa4\x10\x00", {}, (0, 0x378), [], (0, 8), b"0"),
]

# ---- the same of a story whose object 2 has property 1, of one byte, 9, at 8102, which is -32,510 as a signed word; its code is at 9010

HIGH_PROPERTY_1 = {0x273: 1, 0x275: 0}  # object 1 has it at 274

HIGH_RESULTS = [
    ("a high address", b"\x12\x02\x01\x00", {}, (0, 0), [], (-32510, -32510), b"-32510"),
    ("a high address or none", b"\x52\x10\x01\x00", first_is(2), (1, 2), [], (-32510, 0), b"-32510"),
    ("a high address or a low one", b"\x52\x10\x01\x00", {**HIGH_PROPERTY_1, **first_is(1)}, (1, 2), [], (-32510, 628), b"628"),
    ("a byte at a high address", GET_2_1, {}, (0, 0), [], BYTE, b"9"),
    ("a frozen byte at a high address", GET_2_1, {}, (0, 0), [(0x8102, 0x8102)], (9, 9), b"9"),
    ("the length at a high address", b"\x84\x81\x02\x00", {}, (0, 0), [], (0, 8), b"1"),
    ("the length at any of some high addresses", b"\xa4\x10\x00", first_is(0x8102), (-32768, -32510), [], (0, 8), b"1"),
]

# ---- the same of a story of 40 objects, each with property 5, of one byte, its own number, at 4002 and 16 further for each number; but
# object 20 has no property, and the default is -9

ALL_FROZEN = [(0x4002 + 16 * number,) * 2 for number in range(1, 41) if number != 20]

MANY_RESULTS = [
    ("the first 16 objects", b"\x51\x10\x05\x00", first_is(1), (1, 16), ALL_FROZEN, (1, 16), b"1"),
    ("the first 17", b"\x51\x10\x05\x00", first_is(17), (1, 17), ALL_FROZEN, (1, 17), b"17"),
    ("2 to 16", b"\x51\x10\x05\x00", first_is(16), (2, 16), ALL_FROZEN, (2, 16), b"16"),
    ("16 and 17", b"\x51\x10\x05\x00", first_is(16), (16, 17), ALL_FROZEN, (16, 17), b"16"),
    ("17 to 32, of which one has no such property", b"\x51\x10\x05\x00", first_is(20), (17, 32), ALL_FROZEN, (-9, 32), b"-9"),
    ("19 to 21", b"\x51\x10\x05\x00", first_is(21), (19, 21), ALL_FROZEN, (-9, 21), b"21"),
    ("21 to 40", b"\x51\x10\x05\x00", first_is(40), (21, 40), ALL_FROZEN, (21, 40), b"40"),
    ("all 40", b"\x51\x10\x05\x00", first_is(33), (1, 40), ALL_FROZEN, (-9, 40), b"33"),
    ("all 40, of which one isn't frozen", b"\x51\x10\x05\x00", first_is(33), (1, 40), ALL_FROZEN[:-1], (-9, 255), b"33"),
    ("the addresses of the first 16", b"\x52\x10\x05\x00", first_is(2), (1, 16), [], (0x4012, 0x4102), b"16418"),
    ("the addresses of 21 to 40", b"\x52\x10\x05\x00", first_is(40), (21, 40), [], (0x4152, 0x4282), b"17026"),
    ("the addresses of all 40", b"\x52\x10\x05\x00", first_is(20), (1, 40), [], (0, 0x4282), b"0"),
    ("what is behind 5, of 21 to 40", b"\x53\x10\x05\x00", first_is(21), (21, 40), [], (0, 31), b"0"),
]

# the instruction, where from and to its result is stated, what global 16 may be, what is frozen, and the rule that is broken, if any

MANY_CHECKED = [
    ("what is behind 5, of 17 to 40", b"\x53\x10\x05\x00", (0, 31), (17, 40), [], "I7"),
    ("what is behind 5, of 1 to 20", b"\x53\x10\x05\x00", (0, 31), (1, 20), [], "I7"),
    ("put_prop of 21 to 40", b"\xe3\x97\x10\x05\x08", None, (21, 40), ALL_FROZEN[:19], None),
    ("put_prop of 1 to 16", b"\xe3\x97\x10\x05\x08", None, (1, 16), ALL_FROZEN[16:], None),
    ("put_prop of the first 16, of which one is frozen", b"\xe3\x97\x10\x05\x08", None, (1, 16), ALL_FROZEN[15:16], "I9"),
    ("put_prop of 21 to 40, of which the last is frozen", b"\xe3\x97\x10\x05\x08", None, (21, 40), ALL_FROZEN[-1:], "I9"),
    ("put_prop of what 20 hasn't", b"\xe3\x97\x10\x05\x08", None, (19, 21), [], "I7"),
    ("put_prop of 1 to 41", b"\xe3\x97\x10\x05\x08", None, (1, 41), [], "I5"),
]

# ---- plays: the instructions, bytes that are others, what global 16 may be, what is frozen, what is printed

BYTE_PRINTED = [(PRINT_TOP, interval(*BYTE)), QUIT]
WORD_PRINTED = [(PRINT_TOP, ANY), QUIT]

PLAYS = [
    ("a byte takes the low byte", [b"\xe3\x53\x01\x05\x01\x2c", GET_1_5, *BYTE_PRINTED], {}, (0, 0), [], b"44"),
    ("a byte takes 255 of -1", [b"\xe3\x53\x01\x05\xff\xff", GET_1_5, *BYTE_PRINTED], {}, (0, 0), [], b"255"),
    ("a word takes both", [b"\xe3\x53\x01\x03\xff\xfe", GET_1_3, *WORD_PRINTED], {}, (0, 0), [], b"-2"),
    ("a word takes a byte", [b"\xe3\x57\x01\x03\x09", GET_1_3, *WORD_PRINTED], {}, (0, 0), [], b"9"),
    ("the word behind a byte stays", [b"\xe3\x53\x01\x05\xff\xff", GET_1_3, *WORD_PRINTED], {}, (0, 0), [], b"4660"),
    ("the byte before a word stays", [b"\xe3\x53\x01\x03\xff\xff", GET_1_5, *BYTE_PRINTED], {}, (0, 0), [], b"7"),
    ("a byte beside a frozen word is put", [b"\xe3\x57\x01\x05\x08", GET_1_5, *BYTE_PRINTED], {}, (0, 0), [THREE], b"8"),
    ("the word that is put is popped", [PUSH + b"\x08", (b"\xe3\x5b\x01\x05\x00", slots(8)), GET_1_5, *BYTE_PRINTED], {}, (0, 0), [], b"8"),
    (
        "all three are popped",
        [PUSH + b"\x08", (PUSH + b"\x05", slots(8)), (PUSH + b"\x01", slots(8, 5)), (b"\xe3\xab\x00\x00\x00", slots(8, 5, 1)), GET_1_5, *BYTE_PRINTED],
        {}, (0, 0), [], b"8",
    ),
    ("a property of either object", [b"\xe3\x97\x10\x01\x08", GET_2_1, *BYTE_PRINTED], {**with_property(1), 0x273: 1, 0x275: 0, **first_is(2)}, (1, 2), [], b"8"),
    ("the length of what is found", [b"\x12\x01\x03\x00", (b"\xa4\x00\x00", slots(630)), (PRINT_TOP, interval(0, 8)), QUIT], {}, (0, 0), [], b"2"),
    ("the length of what isn't", [b"\x12\x01\x04\x00", (b"\xa4\x00\x00", slots(0)), (PRINT_TOP, interval(0, 8)), QUIT], {}, (0, 0), [], b"0"),
    ("a name", [b"\x9a\x01", QUIT], {}, (0, 0), [], b"a"),
    ("another name", [b"\x9a\x02", QUIT], {}, (0, 0), [], b"b"),
    ("the name of either object", [b"\xaa\x10", QUIT], first_is(2), (1, 2), [], b"b"),
    ("a name of no words, printed", [b"\x9a\x02", b"\x9a\x01", QUIT], {NAME_2: 0}, (0, 0), [], b"a"),
    ("a name with an abbreviation", [b"\x9a\x01", QUIT], {0x271: 0x84, 0x272: 0x06}, (0, 0), [], b"a"),
    ("a frozen byte, for a global", [b"\x11\x01\x05\x10", PRINT_FIRST, QUIT], {}, (0, 7), [FIVE], b"7"),
]

# ---- refused: the instruction, where from and to its result is stated, bytes that are others, what global 16 may be, what is frozen,
# the rule, and what the checked machine does

F6, F8, F9 = fault("F6 at 00370"), fault("F8 at 00370"), fault("F9 at 00370")

REFUSED = [
    # the number of an object
    *(
        (f"{name} of {number}", instruction, slot, {}, (0, 0), [], "I5 at 00370", F6)
        for number in (0, 3)
        for name, instruction, slot in [
            ("get_prop", bytes([0x11, number, 5, 0]), WIDE),
            ("get_prop_addr", bytes([0x12, number, 5, 0]), WIDE),
            ("get_next_prop", bytes([0x13, number, 0, 0]), (0, 31)),
            ("put_prop", bytes([0xE3, 0x57, number, 5, 8]), None),
            ("print_obj", bytes([0x9A, number]), None),
        ]
    ),
    ("get_prop of object -1", b"\xd1\x1f\xff\xff\x05\x00", WIDE, {}, (0, 0), [], "I5 at 00370", F6),
    ("get_prop of what may be 0", b"\x51\x10\x05\x00", WIDE, {}, (0, 2), [], "I5 at 00370", F6),
    ("get_prop of what may be 3", b"\x51\x10\x05\x00", WIDE, first_is(1), (1, 3), [], "I5 at 00370", printed(b"7")),
    ("print_obj of what may be 3", b"\xaa\x10", None, first_is(1), (1, 3), [], "I5 at 00370", printed(b"a")),
    ("get_prop of 0, whatever is stated", b"\x11\x00\x05\x00", (9, 9), {}, (0, 0), [], "I5 at 00370", F6),
    ("get_prop_addr of 0, whatever is stated", b"\x12\x00\x05\x00", (9, 9), {}, (0, 0), [], "I5 at 00370", F6),
    ("get_next_prop of 0, and too little is stated", b"\x13\x00\x00\x00", (0, 30), {}, (0, 0), [], "I4 at 00370", F6),
    # the number of a property
    ("get_prop 0", b"\x11\x01\x00\x00", WIDE, {}, (0, 0), [], "I7 at 00370", F8),
    ("get_prop 32", b"\x11\x01\x20\x00", WIDE, {}, (0, 0), [], "I7 at 00370", F8),
    ("get_prop 37, as 5 in a size byte", b"\x11\x01\x25\x00", WIDE, {}, (0, 0), [], "I7 at 00370", F8),
    ("get_prop -1", b"\xd1\x4f\x01\xff\xff\x00", WIDE, {}, (0, 0), [], "I7 at 00370", F8),
    ("get_prop of what may be number 0", b"\x31\x01\x10\x00", WIDE, first_is(5), (0, 5), [], "I7 at 00370", printed(b"7")),
    ("get_prop of what may be number 32", b"\x31\x01\x10\x00", WIDE, first_is(5), (5, 32), [], "I7 at 00370", printed(b"7")),
    ("get_prop 32, whatever is stated", b"\x11\x01\x20\x00", (9, 9), {}, (0, 0), [], "I7 at 00370", F8),
    ("get_prop of three bytes", GET_2_1, WIDE, TRIPLE, (0, 0), [], "I7 at 00370", F9),
    ("get_prop of what may be three bytes", b"\x51\x10\x01\x00", WIDE, {**TRIPLE, **first_is(1)}, (1, 2), [], "I7 at 00370", printed(b"0")),
    ("get_next_prop behind 4", b"\x13\x01\x04\x00", (0, 31), {}, (0, 0), [], "I7 at 00370", F8),
    ("get_next_prop behind what another object has", b"\x13\x02\x05\x00", (0, 31), {}, (0, 0), [], "I7 at 00370", F8),
    ("get_next_prop behind 32", b"\x13\x01\x20\x00", (0, 31), {}, (0, 0), [], "I7 at 00370", F8),
    ("get_next_prop behind what may be 4", b"\x33\x01\x10\x00", (0, 31), first_is(5), (3, 5), [], "I7 at 00370", printed(b"3")),
    ("get_next_prop behind 4, and too little is stated", b"\x13\x01\x04\x00", (0, 30), {}, (0, 0), [], "I4 at 00370", F8),
    ("put_prop of what isn't there", b"\xe3\x57\x01\x09\x08", None, {}, (0, 0), [], "I7 at 00370", F8),
    ("put_prop of what another object has", b"\xe3\x57\x02\x05\x08", None, {}, (0, 0), [], "I7 at 00370", F8),
    ("put_prop 0", b"\xe3\x57\x01\x00\x08", None, {}, (0, 0), [], "I7 at 00370", F8),
    ("put_prop 37, as 5 in a size byte", b"\xe3\x57\x01\x25\x08", None, {}, (0, 0), [], "I7 at 00370", F8),
    ("put_prop of three bytes", b"\xe3\x57\x02\x01\x08", None, TRIPLE, (0, 0), [], "I7 at 00370", F9),
    ("put_prop of what one object hasn't", b"\xe3\x97\x10\x05\x08", None, first_is(1), (1, 2), [], "I7 at 00370", printed(b"")),
    # what is frozen
    ("put_prop of a frozen byte", b"\xe3\x57\x01\x05\x08", None, {}, (0, 0), [FIVE], "I9 at 00370", printed(b"")),
    ("put_prop of a frozen high byte", b"\xe3\x57\x01\x03\x08", None, {}, (0, 0), [(0x276, 0x276)], "I9 at 00370", printed(b"")),
    ("put_prop of a frozen low byte", b"\xe3\x57\x01\x03\x08", None, {}, (0, 0), [(0x277, 0x277)], "I9 at 00370", printed(b"")),
    # addresses: code of eight bytes ends memory at 378
    ("get_prop_len behind memory", b"\x84\x03\x79\x00", (0, 8), {}, (0, 0), [], "I10 at 00370", fault("F12 at 00370")),
    ("get_prop_len of -1", b"\x84\xff\xff\x00", (0, 8), {}, (0, 0), [], "I10 at 00370", fault("F12 at 00370")),
    ("get_prop_len of what may lie behind memory", b"\xa4\x10\x00", (0, 8), {}, (0, 0x379), [], "I10 at 00370", printed(b"0")),
    ("get_prop_len of what may be -1", b"\xa4\x10\x00", (0, 8), {}, (-1, 0), [], "I10 at 00370", printed(b"0")),
    ("get_prop_len behind memory, whatever is stated", b"\x84\x03\x79\x00", (0, 7), {}, (0, 0), [], "I10 at 00370", fault("F12 at 00370")),
    # results
    ("a byte that a global may not be", b"\x11\x01\x05\x10", None, {}, (0, 254), [], "I16 at 00370", printed(b"")),
]

# ---- property tables that aren't as S5 wants, so that no certificate is accepted: where object 2 has its table, the instructions up to
# quit, bytes of the table behind them or bytes that are others, and what the checked machine does

GET_2_1_PRINTED = [GET_2_1, PRINT_TOP]
PUT_2_1 = b"\xe3\x57\x02\x01\x08"

MALFORMED = [
    ("put_prop in static memory", None, [PUT_2_1], b"\0\x01\x05\0", fault("F11 at 00370")),
    ("put_prop of an absent property in static memory", None, [PUT_2_1], b"\0\x02\x05\0", F8),
    ("put_prop of three bytes in static memory", None, [PUT_2_1], b"\0\x41\x05\x05\x05\0", F9),
    ("get_prop in static memory", None, GET_2_1_PRINTED, b"\0\x01\x05\0", printed(b"5")),
    ("put_prop of the last byte of dynamic memory", 0x297, [PUT_2_1, *GET_2_1_PRINTED], bytes_at(0x298, b"\x01"), printed(b"8")),
    ("put_prop of that and the first of static memory", 0x297, [PUT_2_1], bytes_at(0x298, b"\x21"), fault("F11 at 00370")),
    ("get_prop in a table behind memory", 0x7FFF, GET_2_1_PRINTED, default(1, 6), printed(b"6")),
    ("get_prop_addr in a table behind memory", 0x7FFF, [b"\x12\x02\x01\x00", PRINT_TOP], {}, printed(b"0")),
    ("get_next_prop in a table behind memory", 0x7FFF, [b"\x13\x02\x00\x00", PRINT_TOP], {}, printed(b"0")),
    ("put_prop in a table behind memory", 0x7FFF, [PUT_2_1], {}, F8),
    ("print_obj by a table behind memory", 0x7FFF, [b"\x9a\x02"], {}, fault("F13 at 00370")),
    ("a name without an end", None, [b"\x9a\x02"], b"\x01\x14\xa5", fault("F13 at 00370")),
    ("a name behind the end", 0x373, [b"\x9a\x02"], {0x373: 1}, fault("F13 at 00370")),
    ("an empty name at the end", 0x373, [b"\x9a\x02"], {}, printed(b"")),
    ("a name that goes on behind its words", None, [b"\x9a\x02"], b"\x01\x18\xc6\x98\xa5\0", printed(b"aaaa")),
    ("a property that memory ends in", None, GET_2_1_PRINTED, b"\0\x41\x05", printed(b"0")),
]


def files(lines, values=ZERO, others=(), ranges=(), first=CODE):
    """A story with two objects and these instructions, each with the slots of its stack, with other bytes, and its certificate."""
    lines = placed(lines, first)
    made = with_objects(bytes(first - CODE) + b"".join(code for _, code, _ in lines))
    for at, byte in dict(others).items():
        made = changed(made, at, byte)
    stacks = {start: slot for start, _, slot in lines if slot is not UNLISTED}
    return {"story": made, "certificate": certificate(made, list(stacks), stacks=stacks, own=values, ranges=ranges)}


def pushing(instruction, slot):
    """An instruction, its result printed, if it has one, and quit."""
    return [instruction, (PRINT_TOP, interval(*slot)), QUIT] if slot else [instruction, QUIT]


def high(lines, values, others, ranges):
    """The same with static memory from 9000 on, which begins with an empty dictionary, and a property of object 2 before it."""
    header = {**bytes_at(0x06, word(HIGH)), **bytes_at(0x08, word(0x9000)), **bytes_at(0x0E, word(0x9000))}
    table = {**bytes_at(LAST_OBJECT, word(0x8100)), **bytes_at(0x8101, b"\x01\x09"), **bytes_at(0x9001, b"\x04")}
    return files(lines, values, {**header, **table, **others}, ranges, HIGH)


def many(lines, values, others, ranges):
    """A story of 40 objects, with all else in static memory, from 9000 on: an empty dictionary, the abbreviations, an empty text."""
    header = {**bytes_at(0x06, word(MANY)), **bytes_at(0x08, word(0x9000)), **bytes_at(0x0E, word(0x9000)), **bytes_at(0x18, word(0x9004))}
    entries = b"".join(bytes(7) + word(0x4000 + 16 * number) for number in range(1, 41))
    tables = b"".join((bytes([0, 5, number, 0]) if number != 20 else b"").ljust(16, b"\0") for number in range(1, 41))
    static = bytes([0, 4, 0, 0]) + word(0x90C4 // 2) * 96 + b"\x94\xa5"
    rest = {**bytes_at(0x25E, entries), **bytes_at(0x4010, tables), **bytes_at(0x9000, static)}
    return files(lines, values, {**header, **rest, **default(5, -9), **others}, ranges, MANY)


def malformed(place, lines, rest):
    """A story whose object 2 has its property table there, or behind the code."""
    code = b"".join(lines) + QUIT
    others = {}
    if isinstance(rest, bytes):
        place, code = CODE + len(code), code + rest
    else:
        others = rest
    return files([(code, b"")], others={**others, **bytes_at(LAST_OBJECT, word(place))})


def see_result(plays, making, at, name, instruction, others, first, ranges, slot, text):
    of = lambda stated: making(pushing(instruction, stated), {16: first}, others, ranges)
    plays.answers(name, of(slot), printed(text))
    for tight in tighter(*slot):
        plays.refuses(f"{name}, in {tight}", of(tight), f"I4 at {at:05x}")


def see_properties(program, count):
    plays = Plays(program, count)
    for row in RESULTS:
        see_result(plays, files, CODE, *row)
    for row in HIGH_RESULTS:
        see_result(plays, high, HIGH, *row)
    for row in MANY_RESULTS:
        see_result(plays, many, MANY, *row)
    for name, instruction, slot, first, ranges, rule in MANY_CHECKED:
        given = many(pushing(instruction, slot), {16: first}, first_is(first[0]), ranges)
        wanted = Answer(1, b"", f"refused: {rule} at {MANY:05x}\n".encode()) if rule else printed(b"accepted\n")
        count.is_answer(name, program.run(["check", "story", "certificate"], given), wanted)
    for name, lines, others, first, ranges, text in PLAYS:
        plays.answers(name, files(lines, {16: first}, others, ranges), printed(text))
    for name, instruction, slot, others, first, ranges, rule, played in REFUSED:
        given = files(pushing(instruction, slot), {16: first}, others, ranges)
        plays.refuses(name, given, rule)
        count.is_answer(f"{name}, checked", plays.play(given, []), played)
    plays.refuses("get_prop_len of what may be such", high(pushing(b"\xa4\x10\x00", (0, 8)), {16: (-32510, 628)}, {}, []), "I10 at 09010")
    for name, place, lines, rest, played in MALFORMED:
        given = malformed(place, lines, rest)
        plays.refuses(name, given, "S5")
        count.is_answer(f"{name}, checked", plays.play(given, []), played)
