"""Runs of arithmetic, branches, variables, the stack and printing, on both machines. What is printed, and the values that the
certificates state, are worked out by hand after the standard, docs/MACHINE.md and docs/CERTIFICATE.md."""
from itertools import accumulate

from program import Answer
from samples import CODE, QUIT, certificate, changed, interval, story

EMPTY = b""
ANY = interval(-32768, 32767)
ZERO = {16: (0, 0)}

PUSH = b"\xe8\x7f"  # a byte follows
PRINT_TOP = b"\xe6\xbf\x00"
PRINT_FIRST = b"\xe6\xbf\x10"  # global 16
SAY_NO, SAY_YES = b"\xe5\x7f\x6e", b"\xe5\x7f\x79"  # print_char n, y
BRANCH = b"\xc6"  # over the four bytes that follow, where the condition holds
UNLISTED = None


def single(number):
    return interval(number, number)


def slots(*numbers):
    return b"".join(single(it) for it in numbers)


# ---- results: the instruction, what global 16 may be, from where to where the result may be, what it is

RESULTS = [
    ("a sum", b"\xd4\x0f\x00\x05\xff\xf9\x00", (0, 0), (-2, -2), b"-2"),
    ("a sum that wraps", b"\xd4\x0f\x7f\xff\x00\x01\x00", (0, 0), (-32768, 32767), b"-32768"),
    ("a sum of a range", b"\x54\x10\x03\x00", (-5, 5), (-2, 8), b"3"),
    ("a sum of a range that may wrap", b"\xd4\x8f\x10\x7f\xff\x00", (-5, 5), (-32768, 32767), b"32767"),
    ("a difference", b"\x15\x03\x0a\x00", (0, 0), (-7, -7), b"-7"),
    ("a difference that wraps", b"\xd5\x0f\x80\x00\x00\x01\x00", (0, 0), (-32768, 32767), b"32767"),
    ("a difference of a range", b"\x35\x03\x10\x00", (-1, 5), (-2, 4), b"3"),
    ("a product", b"\xd6\x1f\xff\xf9\x06\x00", (0, 0), (-42, -42), b"-42"),
    ("a product that wraps", b"\xd6\x0f\x01\x2c\xfe\xd4\x00", (0, 0), (-32768, 32767), b"-24464"),
    ("a product of a range", b"\xd6\x8f\x10\xff\xfb\x00", (-3, 4), (-20, 15), b"0"),
    ("a product of a range that may wrap", b"\x56\x10\xc8\x00", (-200, 200), (-32768, 32767), b"0"),
    ("a quotient below 0", b"\xd7\x1f\xff\xf5\x02\x00", (0, 0), (-5, -5), b"-5"),
    ("a quotient by a number below 0", b"\xd7\x4f\x0d\xff\xfb\x00", (0, 0), (-2, -2), b"-2"),
    ("a quotient that no word is", b"\xd7\x0f\x80\x00\xff\xff\x00", (0, 0), (-32768, 32767), b"-32768"),
    ("a quotient of all words", b"\x57\x10\x02\x00", (-32768, 32767), (-16384, 16383), b"0"),
    ("what -11 leaves by 5", b"\xd8\x1f\xff\xf5\x05\x00", (0, 0), (-4, 0), b"-1"),
    ("what 13 leaves by -5", b"\xd8\x4f\x0d\xff\xfb\x00", (0, 0), (0, 4), b"3"),
    ("what -32,768 leaves by -1", b"\xd8\x0f\x80\x00\xff\xff\x00", (0, 0), (0, 0), b"0"),
    ("what a range leaves", b"\x58\x10\x04\x00", (-10, 3), (-3, 3), b"0"),
    ("or", b"\xc8\x0f\x80\x00\x00\x01\x00", (0, 0), (-32767, -32767), b"-32767"),
    ("or of a range", b"\x48\x10\x07\x00", (0, 100), (0, 32767), b"7"),
    ("or of a range with -1", b"\xc8\x8f\x10\xff\xff\x00", (0, 100), (-32768, 32767), b"-1"),
    ("and", b"\xc9\x0f\xff\xf0\x00\xff\x00", (0, 0), (240, 240), b"240"),
    ("and of a range", b"\xc9\x8f\x10\xff\xff\x00", (0, 100), (0, 100), b"0"),
    ("and of a range that goes below 0", b"\xc9\x8f\x10\xff\xff\x00", (-5, 100), (-32768, 32767), b"0"),
    ("not", b"\x8f\x7f\xff\x00", (0, 0), (-32768, -32768), b"-32768"),
    ("not of a range", b"\xaf\x10\x00", (-5, 3), (-4, 4), b"-1"),
]

# ---- conditions: the instruction up to its branch, what global 16 may be, what it may answer, what it answers

CONDITIONS = [
    ("5 is 5", b"\x01\x05\x05", (0, 0), b"y", b"y"),
    ("5 isn't 6", b"\x01\x05\x06", (0, 0), b"n", b"n"),
    ("0 isn't 5, where it may be", b"\x41\x10\x05", (0, 5), b"yn", b"n"),
    ("0 isn't 5, where it can't be", b"\x41\x10\x05", (0, 4), b"n", b"n"),
    ("1 is one of 2, 3, 1", b"\xc1\x55\x01\x02\x03\x01", (0, 0), b"yn", b"y"),
    ("1 is none of 2, 3, 4", b"\xc1\x55\x01\x02\x03\x04", (0, 0), b"yn", b"n"),
    ("-1 is less than 1", b"\xc2\x1f\xff\xff\x01", (0, 0), b"y", b"y"),
    ("1 isn't less than -1", b"\xc2\x4f\x01\xff\xff", (0, 0), b"n", b"n"),
    ("3 isn't less than 3", b"\x02\x03\x03", (0, 0), b"n", b"n"),
    ("0 is less than 1, where it may be 1", b"\x42\x10\x01", (0, 1), b"yn", b"y"),
    ("1 is greater than -1", b"\xc3\x4f\x01\xff\xff", (0, 0), b"y", b"y"),
    ("3 isn't greater than 3", b"\x03\x03\x03", (0, 0), b"n", b"n"),
    ("7 has the bits of 5", b"\x07\x07\x05", (0, 0), b"yn", b"y"),
    ("5 has not the bits of 7", b"\x07\x05\x07", (0, 0), b"yn", b"n"),
    ("0 is 0", b"\x90\x00", (0, 0), b"y", b"y"),
    ("256 isn't 0", b"\x80\x01\x00", (0, 0), b"n", b"n"),
    ("the sum is the header's", b"\xbd", (0, 0), b"yn", b"y"),
    ("a count up to 1 isn't above 1", b"\x05\x10\x01", (-32768, 32767), b"yn", b"n"),
    ("a count up to 1 is above 0", b"\x05\x10\x00", (-32768, 32767), b"yn", b"y"),
    ("a count down to -1 is below 0", b"\x04\x10\x00", (-32768, 32767), b"yn", b"y"),
    ("a count down to -1 isn't below -1", b"\xc4\x4f\x10\xff\xff", (-32768, 32767), b"yn", b"n"),
    ("a count isn't above 32767, which isn't told of a global", b"\xc5\x4f\x10\x7f\xff", (-32768, 32767), b"yn", b"n"),
    ("a count isn't below -32768, which isn't told of a global", b"\xc4\x4f\x10\x80\x00", (-32768, 32767), b"yn", b"n"),
]

# ---- branches in a routine of two locals: the instruction up to its branch, what the locals may be before, and what they may be
# where it holds, and where not, or None where that can't be

TEN = (0, 10)

NARROWED = [
    ("jl of two locals", b"\x62\x01\x02", [TEN, (3, 5)], [(0, 4), (3, 5)], [(3, 10), (3, 5)]),
    ("jl of a local and itself", b"\x62\x01\x01", [TEN, TEN], [(1, 9), TEN], [TEN, TEN]),
    ("jl of a local and 0", b"\x42\x01\x00", [TEN, TEN], None, [TEN, TEN]),
    ("jl of 5 and a local", b"\x22\x05\x01", [TEN, TEN], [(6, 10), TEN], [(0, 5), TEN]),
    ("jg of a local and 5", b"\x43\x01\x05", [TEN, TEN], [(6, 10), TEN], [(0, 5), TEN]),
    ("je of two locals", b"\x61\x01\x02", [TEN, (3, 15)], [(3, 10), (3, 10)], [TEN, (3, 15)]),
    ("je of a local and its lower end", b"\x41\x01\x00", [TEN, TEN], [(0, 0), TEN], [(1, 10), TEN]),
    ("je of a local and its upper end", b"\x41\x02\x0a", [TEN, TEN], [TEN, (10, 10)], [TEN, (0, 9)]),
    ("je of a local and what lies between", b"\x41\x01\x05", [TEN, TEN], [(5, 5), TEN], [TEN, TEN]),
    ("je of a local and two numbers", b"\xc1\x97\x01\x01\x02", [TEN, TEN], [TEN, TEN], [TEN, TEN]),
    ("jz of a local", b"\xa0\x01", [TEN, TEN], [(0, 0), TEN], [(1, 10), TEN]),
    ("test of a local", b"\x47\x01\x01", [TEN, TEN], [TEN, TEN], [TEN, TEN]),
    ("inc_chk of a local and 5", b"\x05\x01\x05", [TEN, TEN], [(6, 11), TEN], [(1, 5), TEN]),
    ("inc_chk of a local that may wrap", b"\x05\x01\x05", [(0, 32767), TEN], [(6, 32767), TEN], [(-32768, 5), TEN]),
    ("inc_chk of two locals", b"\x25\x01\x02", [TEN, (3, 5)], [(4, 11), (3, 5)], [(1, 5), (3, 5)]),
    ("dec_chk of a local and 5", b"\x04\x01\x05", [TEN, TEN], [(-1, 4), TEN], [(5, 9), TEN]),
]

# ---- plays: the instructions, each with the slots of its stack, what globals may be, what is printed

COUNTDOWN = [b"\x0d\x10\x03", PRINT_FIRST, b"\x04\x10\x01\xc5", b"\x8c\xff\xf8", QUIT]
TOP_ABOVE_8 = [PUSH + b"\x07", (b"\x05\x00\x08" + BRANCH, slots(7)), (SAY_NO, slots(8)), (QUIT, slots(8))]
COUNT_FOR_EVER = [b"\x95\x10", b"\x8c\xff\xfd"]
DIVIDE_BY_FIRST = [b"\x0d\x10\x01", b"\x37\x07\x10\x00", (PRINT_TOP, ANY), QUIT]

PLAYS = [
    ("a global is stored", [b"\x0d\x10\x05", PRINT_FIRST, QUIT], {16: (0, 5)}, b"5"),
    ("a countdown", COUNTDOWN, {16: (-32768, 32767)}, b"321"),
    ("a global is loaded", [b"\x9e\x10\x00", (PRINT_TOP, slots(0)), QUIT], ZERO, b"0"),
    ("the top is loaded", [PUSH + b"\x07", (b"\x9e\x00\x00", slots(7)), (PRINT_TOP, slots(7, 7)), (PRINT_TOP, slots(7)), QUIT], ZERO, b"77"),
    ("the top is stored", [PUSH + b"\x07", (b"\x0d\x00\x09", slots(7)), (PRINT_TOP, slots(9)), QUIT], ZERO, b"9"),
    (
        "the top is counted",
        [PUSH + b"\x07", (b"\x95\x00", slots(7)), (b"\x95\x00", slots(8)), (b"\x96\x00", slots(9)), (PRINT_TOP, slots(8)), QUIT],
        ZERO,
        b"8",
    ),
    ("the top is counted to 8, which may be above 8 or not", TOP_ABOVE_8 + [(SAY_YES, slots(8)), (QUIT, slots(8))], ZERO, b"n"),
    ("a global is pulled", [PUSH + b"\x09", (b"\xe9\x7f\x10", slots(9)), PRINT_FIRST, QUIT], {16: (0, 9)}, b"9"),
    ("the top is pulled", [PUSH + b"\x01", (PUSH + b"\x02", slots(1)), (b"\xe9\x7f\x00", slots(1, 2)), (PRINT_TOP, slots(2)), QUIT], ZERO, b"2"),
    ("the variable's number is popped", [PUSH + b"\x10", (b"\x4d\x00\x05", slots(16)), PRINT_FIRST, QUIT], {16: (0, 5)}, b"5"),
    (
        "operands are read from left to right",
        [PUSH + b"\x02", (PUSH + b"\x0a", slots(2)), (b"\x75\x00\x00\x00", slots(2, 10)), (PRINT_TOP, slots(8)), QUIT],
        ZERO,
        b"8",
    ),
    (
        "four operands are popped",
        [
            PUSH + b"\x04",
            (PUSH + b"\x03", slots(4)),
            (PUSH + b"\x02", slots(4, 3)),
            (PUSH + b"\x04", slots(4, 3, 2)),
            (b"\xc1\xaa\x00\x00\x00\x00" + BRANCH, slots(4, 3, 2, 4)),
            SAY_NO,
            QUIT,
            SAY_YES,
            QUIT,
        ],
        ZERO,
        b"y",
    ),
    (
        "a divisor that can't be 0",
        [b"\x54\x10\x02\x00", (b"\x37\x64\x00\x00", interval(2, 5)), (PRINT_TOP, interval(20, 50)), QUIT],
        {16: (0, 3)},
        b"50",
    ),
    ("pop", [PUSH + b"\x01", (PUSH + b"\x02", slots(1)), (b"\xb9", slots(1, 2)), (PRINT_TOP, slots(1)), QUIT], ZERO, b"1"),
    ("64 words on the stack", [(PUSH + b"\x01", slots(1) * it) for it in range(64)] + [(QUIT, slots(1) * 64)], ZERO, b""),
    ("a jump ahead", [b"\x8c\x00\x06", (SAY_NO, UNLISTED), (QUIT, UNLISTED), SAY_YES, QUIT], ZERO, b"y"),
    ("a branch back", [b"\x8c\x00\x06", SAY_YES, QUIT, b"\x01\x01\x01\xbf\xf9"], ZERO, b"y"),
    ("a branch where the condition fails", [b"\x01\x05\x06\x46", (SAY_NO, UNLISTED), (QUIT, UNLISTED), SAY_YES, QUIT], ZERO, b"y"),
    ("a branch of two bytes", [b"\x01\x05\x05\x80\x06", (SAY_NO, UNLISTED), (QUIT, UNLISTED), SAY_YES, QUIT], ZERO, b"y"),
    ("a return that is never taken", [b"\x90\x01\xc0", QUIT], ZERO, b""),
    (
        "characters",
        [b"\xe5\x7f" + bytes([code]) for code in (65, 13, 0, 10, 126, 127, 200)] + [b"\xe5\x3f\x04\x00", b"\xe5\x3f\xff\xff", QUIT],
        ZERO,
        b"A\n?~????",
    ),
    (
        "numbers",
        [b"\xe6\x3f\x80\x00", b"\xe5\x7f\x20", b"\xe6\x3f\x7f\xff", b"\xe5\x7f\x20", b"\xe6\x7f\x00", b"\xe5\x7f\x20", b"\xe6\x3f\xff\xff", QUIT],
        ZERO,
        b"-32768 32767 0 -1",
    ),
]

# ---- refused: the instructions, what globals may be, the rule that is broken, and how the checked machine plays all the same


def ended(why):
    return Answer(0, b"", f"end: {why}\n".encode())


def fault(line):
    return Answer(3, b"", f"fault: {line}\n".encode())


def printed(text):
    return Answer(0, text, b"")


REFUSED = [
    ("pull of an empty stack", [b"\xe9\x7f\x10", QUIT], ZERO, "I2 at 00324", fault("F4 at 00324")),
    ("pop of an empty stack", [b"\xb9", QUIT], ZERO, "I2 at 00324", fault("F4 at 00324")),
    ("an operand off an empty stack", [PRINT_TOP, QUIT], ZERO, "I2 at 00324", fault("F4 at 00324")),
    ("a count of the top of an empty stack", [b"\x95\x00", QUIT], ZERO, "I2 at 00324", fault("F4 at 00324")),
    ("a load of the top of an empty stack", [b"\x9e\x00\x00", (QUIT, slots(0))], ZERO, "I2 at 00324", fault("F4 at 00324")),
    ("the top is pulled off a stack of one", [PUSH + b"\x02", (b"\xe9\x7f\x00", slots(2)), QUIT], ZERO, "I2 at 00327", fault("F4 at 00327")),
    ("an absent local", [b"\xe6\xbf\x01", QUIT], ZERO, "I3 at 00324", fault("F5 at 00324")),
    ("a result for an absent local", [b"\x14\x01\x01\x0f", QUIT], ZERO, "I3 at 00324", fault("F5 at 00324")),
    ("a count of an absent local", [b"\x95\x01", QUIT], ZERO, "I3 at 00324", fault("F5 at 00324")),
    ("a load of variable 256", [b"\x8e\x01\x00\x00", (QUIT, slots(0))], ZERO, "I15 at 00324", fault("F16 at 00324")),
    ("a store to variable -1", [b"\xcd\x1f\xff\xff\x05", QUIT], ZERO, "I15 at 00324", fault("F16 at 00324")),
    ("a load of what isn't known", [b"\xae\x10\x00", (QUIT, slots(0))], {16: (0, 1)}, "I15 at 00324", fault("F4 at 00324")),
    ("a quotient by 0", [b"\x17\x07\x00\x00", (QUIT, ANY)], ZERO, "I8 at 00324", fault("F10 at 00324")),
    ("what is left by 0", [b"\x18\x07\x00\x00", (QUIT, ANY)], ZERO, "I8 at 00324", fault("F10 at 00324")),
    ("a quotient by what may be 0", DIVIDE_BY_FIRST, {16: (-1, 1)}, "I8 at 00327", printed(b"7")),
    ("je of one operand", [b"\xc1\x7f\x05" + BRANCH, QUIT], ZERO, "I1 at 00324", fault("F2 at 00324")),
    ("pull of no operand", [b"\xe9\xff", QUIT], ZERO, "I1 at 00324", fault("F2 at 00324")),
    ("pull at the end of memory", [b"\xb4", b"\xe9"], ZERO, "I1 at 00325", fault("F2 at 00325")),
    ("a jump into itself", [b"\x8c\x00\x00", (QUIT, UNLISTED)], ZERO, "I4 at 00324", fault("F2 at 00325")),
    ("a jump below 0", [b"\x8c\x80\x00", (QUIT, UNLISTED)], ZERO, "I4 at 00324", fault("F1 at -31963")),
    ("a jump by what isn't known", [b"\xac\x10"], {16: (0, 1)}, "I4 at 00324", ended("budget")),
    ("a return from the main code", [b"\x90\x00\xc0", QUIT], ZERO, "I13 at 00324", fault("F15 at 00324")),
    ("a return that isn't known to be never taken", [b"\xc5\x4f\x10\x7f\xff\xc0", QUIT], {16: (-32768, 32767)}, "I13 at 00324", printed(b"")),
    ("the top is counted to 8, never listed above 8", TOP_ABOVE_8 + [(SAY_YES, UNLISTED), (QUIT, UNLISTED)], ZERO, "I4 at 00327", printed(b"n")),
    ("a return of 1 from the main code", [b"\x90\x00\xc1", QUIT], ZERO, "I13 at 00324", fault("F15 at 00324")),
    ("a store past what is stated", [b"\x0d\x10\x05", PRINT_FIRST, QUIT], {16: (0, 4)}, "I16 at 00324", printed(b"5")),
    ("a result past what is stated", [b"\x14\x02\x03\x10", PRINT_FIRST, QUIT], {16: (0, 4)}, "I16 at 00324", printed(b"5")),
    ("a count that wraps past what is stated", COUNT_FOR_EVER, {16: (0, 32767)}, "I16 at 00324", ended("budget")),
    ("a countdown past what is stated", COUNTDOWN, {16: (0, 3)}, "I16 at 0032a", printed(b"321")),
    (
        "65 words on the stack",
        [(PUSH + b"\x01", slots(1) * it) for it in range(65)] + [(QUIT, UNLISTED)],
        ZERO,
        "I17 at 003e4",
        printed(b""),
    ),
    ("a stack without an end", [PUSH + b"\x01", (b"\x8c\xff\xfc", slots(1))], ZERO, "I4 at 00327", ended("frame limit")),
]

# ---- loops without an end, until the budget ends

LOOPS = [
    ("a jump to itself", [b"\x8c\xff\xff"], ZERO),
    ("a jump by a global", [b"\xac\x10"], ZERO),
    ("a global is counted for ever", COUNT_FOR_EVER, {16: (-32768, 32767)}),
]


def placed(lines, first=CODE):
    """The instructions with their addresses and the slots of their stacks."""
    lines = [it if isinstance(it, tuple) else (it, EMPTY) for it in lines]
    starts = accumulate([first] + [len(code) for code, _ in lines])
    return [(start, code, stack) for start, (code, stack) in zip(starts, lines)]


def files(lines, values):
    """A story of these instructions, and the certificate that states these stacks and globals."""
    lines = placed(lines)
    made = story(b"".join(code for _, code, _ in lines))
    return {"story": made, "certificate": certified(made, lines, values)}


def certified(made, lines, values):
    stacks = {start: stack for start, _, stack in lines if stack is not UNLISTED}
    return certificate(made, list(stacks), stacks=stacks, own=values)


def tighter(lower, upper):
    """What a range covers not, with one end moved into it. Of a single number its neighbour is taken."""
    if lower == upper:
        return [(lower - 1, lower - 1) if lower > 0 else (lower + 1, lower + 1)]
    return [(lower + 1, upper), (lower, upper - 1)]


def conditional(instruction, may, branch=BRANCH):
    """A story that says whether the condition holds, which lists the answers that there may be."""
    return [instruction + branch] + [
        (code, EMPTY if answer in may else UNLISTED)
        for code, answer in [(SAY_NO, b"n"), (QUIT, b"n"), (SAY_YES, b"y"), (QUIT, b"y")]
    ]


def in_routine(instruction, before, holds, fails):
    """A story that quits, with a routine that is never called, of two locals, which branches to one quit or another."""
    code = QUIT + b"\0" + b"\x02\0\0\0\0" + instruction + b"\xc3" + QUIT + QUIT
    made = story(code)
    at, next_ = 0x32B, 0x32B + len(instruction) + 1
    stated = {place: values for place, values in [(at, before), (next_, fails), (next_ + 1, holds)] if values}
    inside = {place: (1, b"".join(interval(*it) for it in values)) for place, values in stated.items()}
    return {"story": made, "certificate": certificate(made, [CODE] + list(stated), routines=[(0x326, 2)], inside=inside)}


def each_tighter(values):
    """These ranges with one of them tighter, in each way."""
    for k, it in enumerate(values or []):
        for tight in tighter(*it):
            yield values[:k] + [tight] + values[k + 1 :]


class Plays:
    """Plays stories on both machines, and counts."""

    def __init__(self, program, count):
        self.program, self.count = program, count

    def answers(self, name, given, wanted):
        for machine, words in [("checked", []), ("by its certificate", ["certificate"])]:
            self.count.is_answer(f"{name}, {machine}", self.play(given, words), wanted)

    def refuses(self, name, given, rule):
        answer = self.program.run(["check", "story", "certificate"], given)
        self.count.is_answer(name, answer, Answer(1, b"", f"refused: {rule}\n".encode()))

    def play(self, given, words):
        return self.program.run(["play", "--budget", "131072", "story"] + words, given)

    def result(self, name, instruction, values, ends, text):
        of = lambda slot: files([instruction, (PRINT_TOP, interval(*slot)), QUIT], {16: values})
        self.answers(name, of(ends), printed(text))
        for slot in tighter(*ends):
            self.refuses(f"{name}, in {slot}", of(slot), "I4 at 00324")

    def condition(self, name, instruction, values, may, answer):
        of = lambda stated: files(conditional(instruction, stated), {16: values})
        self.answers(name, of(may), printed(answer))
        turned = files(conditional(instruction, may.translate(bytes.maketrans(b"yn", b"ny")), b"\x46"), {16: values})
        self.answers(f"not: {name}", turned, printed(b"n" if answer == b"y" else b"y"))
        for left_out in may:
            rest = may.replace(bytes([left_out]), b"")
            self.refuses(f"{name}, with no {chr(left_out)}", of(rest), "I4 at 00324")

    def narrowed(self, name, instruction, before, holds, fails):
        accepted = self.program.run(["check", "story", "certificate"], in_routine(instruction, before, holds, fails))
        self.count.is_answer(name, accepted, printed(b"accepted\n"))
        for tight in each_tighter(holds):
            self.refuses(f"{name}, {tight} where it holds", in_routine(instruction, before, tight, fails), "I4 at 0032b")
        for tight in each_tighter(fails):
            self.refuses(f"{name}, {tight} where it fails", in_routine(instruction, before, holds, tight), "I4 at 0032b")

    def another_sum(self):
        """The header's sum is another than the story's."""
        lines = placed(conditional(b"\xbd", b"yn"))
        made = changed(story(b"".join(code for _, code, _ in lines)), 0x1C, 0)
        self.answers("another sum", {"story": made, "certificate": certified(made, lines, ZERO)}, printed(b"n"))


def see_plays(program, count):
    plays = Plays(program, count)
    for row in RESULTS:
        plays.result(*row)
    for row in CONDITIONS:
        plays.condition(*row)
    for row in NARROWED:
        plays.narrowed(*row)
    for name, lines, values, text in PLAYS:
        plays.answers(name, files(lines, values), printed(text))
    for name, lines, values in LOOPS:
        plays.answers(name, files(lines, values), ended("budget"))
    for name, lines, values, rule, played in REFUSED:
        given = files(lines, values)
        plays.refuses(name, given, rule)
        count.is_answer(f"{name}, checked", plays.play(given, []), played)
    plays.another_sum()
