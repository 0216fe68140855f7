"""Runs of the opcodes that ask of objects and change them, on both machines. What is printed is worked out by hand after the standard."""
from plays import PRINT_FIRST, PRINT_TOP, QUIT, Plays, certified, conditional, fault, placed, printed
from samples import certificate, changed, interval, with_objects

CODE = 0x370
SECOND = 0x267  # the entry of object 2: four bytes of attributes, its parent, sibling and child

# ---- conditions: the instruction up to its branch, bytes of the story that are others, what it answers

CONDITIONS = [
    ("2 is in 1", b"\x06\x02\x01", {}, b"y"),
    ("1 isn't in 2", b"\x06\x01\x02", {}, b"n"),
    ("1 is in none", b"\x06\x01\x00", {}, b"y"),
    ("2 isn't in none", b"\x06\x02\x00", {}, b"n"),
    ("attribute 0, the top bit of the first byte", b"\x0a\x02\x00", {SECOND: 0x80}, b"y"),
    ("attribute 9", b"\x0a\x02\x09", {SECOND + 1: 0x40}, b"y"),
    ("attribute 8 beside it", b"\x0a\x02\x08", {SECOND + 1: 0x40}, b"n"),
    ("attribute 9 of the other", b"\x0a\x01\x09", {SECOND + 1: 0x40}, b"n"),
    ("attribute 31", b"\x0a\x02\x1f", {SECOND + 3: 0x01}, b"y"),
    ("a child", b"\x92\x01\x10", {}, b"y"),
    ("no child", b"\x92\x02\x10", {}, b"n"),
    ("a sibling", b"\x91\x02\x10", {SECOND + 5: 1}, b"y"),
    ("no sibling", b"\x91\x01\x10", {}, b"n"),
]

# ---- links: the instruction, and what it gives

LINKS = [
    ("the child of 1", b"\x92\x01\x10\xc2", b"2"),
    ("the child of 2", b"\x92\x02\x10\xc2", b"0"),
    ("the sibling of 1", b"\x91\x01\x10\xc2", b"0"),
    ("the parent of 2", b"\x93\x02\x10", b"1"),
    ("the parent of 1", b"\x93\x01\x10", b"0"),
]

# ---- moves: the instructions, and what the last of them gives; 2 is the only object in 1, which is in none

PUT_1_UNDER_2 = b"\x0e\x01\x02"
TAKE_2_OUT = b"\x99\x02"
PARENT_OF_1, PARENT_OF_2 = b"\x93\x01\x10", b"\x93\x02\x10"
CHILD_OF_1, CHILD_OF_2 = b"\x92\x01\x10\xc2", b"\x92\x02\x10\xc2"
SIBLING_OF_1, SIBLING_OF_2 = b"\x91\x01\x10\xc2", b"\x91\x02\x10\xc2"

MOVES = [
    ("1 put under 2 is its child", [PUT_1_UNDER_2, CHILD_OF_2], b"1"),
    ("and has it as its parent", [PUT_1_UNDER_2, PARENT_OF_1], b"2"),
    ("which stays in 1: a cycle", [PUT_1_UNDER_2, PARENT_OF_2], b"1"),
    ("and its child", [PUT_1_UNDER_2, CHILD_OF_1], b"2"),
    ("2 taken out of the cycle is in none", [PUT_1_UNDER_2, TAKE_2_OUT, PARENT_OF_2], b"0"),
    ("1 then has no child", [PUT_1_UNDER_2, TAKE_2_OUT, CHILD_OF_1], b"0"),
    ("and stays in 2", [PUT_1_UNDER_2, TAKE_2_OUT, PARENT_OF_1], b"2"),
    ("2 taken out of 1", [TAKE_2_OUT, CHILD_OF_1], b"0"),
    ("2 taken out twice", [TAKE_2_OUT, TAKE_2_OUT, PARENT_OF_2], b"0"),
    ("2 put back", [TAKE_2_OUT, b"\x0e\x02\x01", CHILD_OF_1], b"2"),
    ("2 put where it is", [b"\x0e\x02\x01", SIBLING_OF_2], b"0"),
    ("1 put under itself", [b"\x0e\x01\x01", CHILD_OF_1], b"1"),
    ("with its child for a sibling", [b"\x0e\x01\x01", SIBLING_OF_1], b"2"),
]

# ---- attributes that are changed: the instruction, bytes of the story that are others, a question behind it, its answer

MARKS = [
    ("attribute 0 set", b"\x0b\x02\x00", {}, b"\x0a\x02\x00", b"y"),
    ("attribute 31 set", b"\x0b\x01\x1f", {}, b"\x0a\x01\x1f", b"y"),
    ("attribute 9 set for 1 isn't set for 2", b"\x0b\x01\x09", {}, b"\x0a\x02\x09", b"n"),
    ("attribute 9 set again", b"\x0b\x02\x09", {SECOND + 1: 0x40}, b"\x0a\x02\x09", b"y"),
    ("attribute 9 cleared", b"\x0c\x02\x09", {SECOND + 1: 0x40}, b"\x0a\x02\x09", b"n"),
    ("attribute 9 cleared where it wasn't set", b"\x0c\x02\x09", {}, b"\x0a\x02\x09", b"n"),
    ("attribute 8 cleared, 9 stays", b"\x0c\x02\x08", {SECOND + 1: 0xC0}, b"\x0a\x02\x09", b"y"),
]

# ---- what no certificate makes well: the instruction, what global 16 may be, the rule, what the checked machine does

NUMBERS = (0, 2)

REFUSED = [
    ("the parent of 0", b"\x93\x00\x10", NUMBERS, "I5 at 00370", fault("F6 at 00370")),
    ("the parent of 3", b"\x93\x03\x10", NUMBERS, "I5 at 00370", fault("F6 at 00370")),
    ("the parent of what may be 0", b"\xa3\x10\x10", NUMBERS, "I5 at 00370", fault("F6 at 00370")),
    ("0 is in 1", b"\x06\x00\x01\xc2", NUMBERS, "I5 at 00370", fault("F6 at 00370")),
    ("an attribute of 3", b"\x0a\x03\x20\xc2", NUMBERS, "I5 at 00370", fault("F6 at 00370")),
    ("attribute 32", b"\x0a\x01\x20\xc2", NUMBERS, "I6 at 00370", fault("F7 at 00370")),
    ("a child that a global may not be", b"\x92\x01\x10\xc2", (0, 1), "I16 at 00370", printed(b"2")),
    ("attribute 9 set for 0", b"\x0b\x00\x09", NUMBERS, "I5 at 00370", fault("F6 at 00370")),
    ("attribute 32 set for 3", b"\x0b\x03\x20", NUMBERS, "I5 at 00370", fault("F6 at 00370")),
    ("attribute 32 cleared", b"\x0c\x01\x20", NUMBERS, "I6 at 00370", fault("F7 at 00370")),
    ("0 put under 1", b"\x0e\x00\x01", NUMBERS, "I5 at 00370", fault("F6 at 00370")),
    ("1 put under 3", b"\x0e\x01\x03", NUMBERS, "I5 at 00370", fault("F6 at 00370")),
    ("1 put under what may be 0", b"\x2e\x01\x10", NUMBERS, "I5 at 00370", fault("F6 at 00370")),
    ("0 taken out", b"\x99\x00", NUMBERS, "I5 at 00370", fault("F6 at 00370")),
    ("3 taken out", b"\x99\x03", NUMBERS, "I5 at 00370", fault("F6 at 00370")),
    ("a parent that a global may not be", b"\x93\x02\x10", (0, 1), "I16 at 00370", printed(b"1")),
]


# ---- the parent of a child: only where there is one, and whether there is one or not

TESTED = [b"\x92\x01\x00\xc3", (QUIT, interval(0, 0)), (b"\xa3\x00\x00", interval(1, 2)), (PRINT_TOP, interval(0, 2)), QUIT]
UNTESTED = [b"\x92\x01\x00\xc2", (b"\xa3\x00\x00", interval(0, 2)), (PRINT_TOP, interval(0, 2)), QUIT]


def stacked(lines):
    """A story with two objects and these instructions, and the certificate that states their stacks."""
    lines = placed(lines, CODE)
    made = with_objects(b"".join(code for _, code, _ in lines))
    return {"story": made, "certificate": certified(made, lines, {})}


def files(lines, values, others=()):
    """A story with two objects and these instructions, with other bytes, and its certificate."""
    lines = placed(lines, CODE)
    made = with_objects(b"".join(code for _, code, _ in lines))
    for at, byte in dict(others).items():
        made = changed(made, at, byte)
    return {"story": made, "certificate": certificate(made, [start for start, _, _ in lines], own={16: values})}


def see_objects(program, count):
    plays = Plays(program, count)
    for name, instruction, others, answer in CONDITIONS:
        plays.answers(name, files(conditional(instruction, b"yn"), NUMBERS, others), printed(answer))
    for name, instruction, text in LINKS:
        plays.answers(name, files([instruction, PRINT_FIRST, QUIT], NUMBERS), printed(text))
    for name, instructions, text in MOVES:
        plays.answers(name, files([*instructions, PRINT_FIRST, QUIT], NUMBERS), printed(text))
    for name, instruction, others, question, answer in MARKS:
        plays.answers(name, files([instruction, *conditional(question, b"yn")], NUMBERS, others), printed(answer))
    for name, instruction, values, rule, played in REFUSED:
        given = files([instruction, PRINT_FIRST, QUIT], values)
        plays.refuses(name, given, rule)
        count.is_answer(f"{name}, checked", plays.play(given, []), played)
    plays.answers("the parent of a child that there is", stacked(TESTED), printed(b"1"))
    plays.refuses("the parent of a child that there may be", stacked(UNTESTED), "I5 at 00374")
    count.is_answer("the parent of a child that there may be, checked", plays.play(stacked(UNTESTED), []), printed(b"1"))
    orphan = files([TAKE_2_OUT, QUIT], NUMBERS, {SECOND + 4: 3})
    plays.refuses("a parent that is no object", orphan, "S6")
    count.is_answer("a parent that is no object, checked", plays.play(orphan, []), fault("F6 at 00370"))
