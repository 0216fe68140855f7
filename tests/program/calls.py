"""Runs of calls and returns, on both machines, and listings of stories with routines. What is printed, and the values that the
certificates state, are worked out by hand after the standard, docs/MACHINE.md and docs/CERTIFICATE.md."""
from plays import PRINT_FIRST, PRINT_TOP, PUSH, SAY_YES, UNLISTED, ZERO, Plays, each_tighter, ended, fault, placed, printed, slots, tighter
from program import Answer
from samples import CODE, HELLO, NOP, QUIT, certificate, interval, story, word

# Where routines stand. What lies between them isn't reached. A routine of no local begins a byte behind its place, one of one local
# three bytes behind it.
A, B, C = 0x360, 0x3A0, 0x3E0
HIGH = 0x12340

WIDE = (-32768, 32767)
ONE, ANY = interval(1, 1), interval(*WIDE)
RTRUE, RFALSE, RET_POPPED = b"\xb0", b"\xb1", b"\xb8"
PRINT_RET = b"\xb3" + HELLO[1:]
RET_FIRST = b"\xab\x01"
PRINT_SECOND = b"\xe6\xbf\x11"  # global 17


def calling(place, types):
    """The beginning of a `call` of a place, with arguments of these types: 1 is a small constant, 2 a variable (Z 4.2)."""
    second, third, fourth = (types + [3] * 3)[:3]
    return bytes([0xE0, 16 * second + 4 * third + fourth]) + word(place // 2)


def call(place, to, *arguments):
    """`call` of a place with small constants. Its result goes to a variable."""
    return calling(place, [1] * len(arguments)) + bytes(arguments) + bytes([to])


def call_with(place, to, *variables):
    """`call` of a place with what variables have."""
    return calling(place, [2] * len(variables)) + bytes(variables) + bytes([to])


def ret(number):
    return b"\x8b" + word(number % 65536)


def routine(place, words, result, *lines):
    """A routine: the initial words of its locals, what it may give, and its instructions, each with what its locals may be, and with
    the slots of its stack where it isn't empty. An instruction alone isn't listed, nor is a routine that gives None."""
    return place, words, result, [(it, None, b"") if isinstance(it, bytes) else (*it, b"")[:3] for it in lines]


def constant(place, number):
    """A routine of no local that gives a number."""
    return routine(place, [], (number, number), (ret(number), []))


def code_of(main, routines):
    """The main code, and each routine at its place, by rising places."""
    code = bytearray(b"".join(it for _, it, _ in placed(main)))
    for place, words, _, lines in routines:
        assert CODE + len(code) <= place and place % 2 == 0, hex(place)
        code += bytes(place - CODE - len(code)) + bytes([len(words)])
        code += b"".join([word(it % 65536) for it in words] + [it for it, _, _ in lines])
    return bytes(code)


def files(main, routines, values=ZERO):
    """A story of this main code and these routines, and the certificate that states of them, and of globals, what is said."""
    made = story(code_of(main, routines))
    stacks = {start: slot for start, _, slot in placed(main) if slot is not UNLISTED}
    addresses, inside, heads = list(stacks), {}, []
    for place, words, result, lines in routines:
        if result is not None:
            heads.append((place, len(words), result))
        listed = [it for it in placed([(code, (locals_, stack)) for code, locals_, stack in lines], place + 1 + 2 * len(words))]
        for at, _, (locals_, stack) in listed:
            if locals_ is not None:
                addresses.append(at)
                stacks[at] = stack
                inside[at] = (len(heads), b"".join(interval(*it) for it in locals_))
    return {"story": made, "certificate": certificate(made, addresses, stacks=stacks, own=values, routines=heads, inside=inside)}


def printing(instruction, slot):
    """A main code that calls, prints what comes back, which may be this, and quits."""
    return [instruction, (PRINT_TOP, interval(*slot)), QUIT]


# ---- results: the routines, of which the first is called, from where to where its result may be, and what is printed

RESULTS = [
    ("a number that is returned", [constant(A, -7)], (-7, -7), b"-7"),
    ("the least word that is returned", [constant(A, -32768)], (-32768, -32768), b"-32768"),
    ("rtrue", [routine(A, [], (1, 1), (RTRUE, []))], (1, 1), b"1"),
    ("rfalse", [routine(A, [], (0, 0), (RFALSE, []))], (0, 0), b"0"),
    ("print_ret", [routine(A, [], (1, 1), (PRINT_RET, []))], (1, 1), b"hello\n1"),
    (
        "a word that is popped",
        [routine(A, [], (2, 2), (PUSH + b"\x09", []), (PUSH + b"\x02", [], slots(9)), (RET_POPPED, [], slots(9, 2)))],
        (2, 2),
        b"2",
    ),
    ("ret of the stack", [routine(A, [], (9, 9), (PUSH + b"\x09", []), (b"\xab\x00", [], slots(9)))], (9, 9), b"9"),
    ("a local's initial word", [routine(A, [300], (300, 300), (RET_FIRST, [(300, 300)]))], (300, 300), b"300"),
    ("a global", [routine(A, [], (-3, 4), (b"\xab\x11", []))], (-3, 4), b"0"),
    (
        "a routine that a routine calls",
        [routine(A, [], (1, 1), (call(B, 0), []), (RET_POPPED, [], ONE)), routine(B, [], (1, 1), (RTRUE, []))],
        (1, 1),
        b"1",
    ),
    (
        "a result for the caller's local",
        [routine(A, [9], (5, 5), (call(B, 1), [(9, 9)]), (RET_FIRST, [(5, 5)])), constant(B, 5)],
        (5, 5),
        b"5",
    ),
    (
        "the locals of another routine",
        [
            routine(A, [7], (7, 7), (call(B, 0), [(7, 7)]), (RET_FIRST, [(7, 7)], ONE)),
            routine(B, [8], (1, 1), (b"\x0d\x01\x09", [(8, 8)]), (RTRUE, [(9, 9)])),
        ],
        (7, 7),
        b"7",
    ),
    (
        "the larger of two results",
        [routine(A, [0], (-2, 6), (b"\xa0\x01\xc5", [(0, 0)]), ret(6), (ret(-2), [(0, 0)]))],
        (-2, 6),
        b"-2",
    ),
]

# ---- arguments: what comes before the call, the call, the initial words, what the locals may be, and what the locals are

PUSHED = [PUSH + b"\x02", (PUSH + b"\x0a", slots(2))]

ARGUMENTS = [
    ("no argument", [], call(A, 17), [10, -20, 30], [(10, 10), (-20, -20), (30, 30)], [10, -20, 30]),
    ("one argument of three", [], call(A, 17, 1), [10, 20, 30], [(1, 1), (20, 20), (30, 30)], [1, 20, 30]),
    ("two arguments of three", [], call(A, 17, 1, 2), [10, 20, 30], [(1, 1), (2, 2), (30, 30)], [1, 2, 30]),
    ("three arguments", [], call(A, 17, 7, 8, 9), [0, 0, 0], [(7, 7), (8, 8), (9, 9)], [7, 8, 9]),
    ("spare arguments", [], call(A, 17, 7, 8, 9), [10], [(7, 7)], [7]),
    ("arguments of a routine without locals", [], call(A, 17, 7, 8, 9), [], [], []),
    ("fifteen locals", [], call(A, 17, 7), list(range(1, 16)), [(7, 7)] + [(it, it) for it in range(2, 16)], [7, *range(2, 16)]),
    ("an argument of a range", [], call_with(A, 17, 16), [10], [(-5, 5)], [0]),
    ("arguments off the stack", PUSHED, (call_with(A, 17, 0, 0), slots(2, 10)), [0, 0], [(10, 10), (2, 2)], [10, 2]),
    (
        "a routine whose address is popped, before its argument",
        [PUSH + b"\x05", (b"\xe8\x3f" + word(A // 2), slots(5))],
        (b"\xe0\xaf\x00\x00\x11", slots(5, A // 2)),
        [0],
        [(5, 5)],
        [5],
    ),
]

# ---- branches of a routine of one local, up to 10, that returns 5 where they aren't taken: the local, and what is returned

BRANCHES = [
    ("jz of 0 returns 1", b"\xa0\x01\xc1", 0, 1),
    ("jz of 0 returns 0", b"\xa0\x01\xc0", 0, 0),
    ("jz of 3 doesn't return", b"\xa0\x01\xc1", 3, 5),
    ("no jz of 3 returns 0", b"\xa0\x01\x40", 3, 0),
    ("no jz of 3 returns 1", b"\xa0\x01\x41", 3, 1),
    ("no jz of 0 doesn't return", b"\xa0\x01\x41", 0, 5),
    ("je of 3 returns 1 by two bytes", b"\x41\x01\x03\x80\x01", 3, 1),
    ("je of 3 returns 0 by two bytes", b"\x41\x01\x03\x80\x00", 3, 0),
    ("jl of 3 and 4 returns 1", b"\x42\x01\x04\xc1", 3, 1),
    ("test of 6 and 4 returns 1", b"\x47\x01\x04\xc1", 6, 1),
    ("inc_chk of 3 and 3 returns 0", b"\x05\x01\x03\xc0", 3, 0),
    ("dec_chk of 3 and 2 doesn't return", b"\x04\x01\x02\xc1", 3, 5),
    ("verify returns 1", b"\xbd\xc1", 3, 1),
]

# ---- levels below the first: a routine that calls itself with one less, and gives one more than comes back; and how many levels

def levels(most):
    return routine(
        A, [0], WIDE,
        (b"\xa0\x01\xc0", [(0, most)]),
        (b"\x55\x01\x01\x01", [(1, most)]),
        (call_with(A, 0, 1), [(0, most - 1)]),
        (b"\x54\x00\x01\x00", [(0, most - 1)], ANY),
        (RET_POPPED, [(0, most - 1)], ANY),
    )


LEVELS = levels(1024)


def deep(count, place=A):
    return printing(b"\xe0\x0f" + word(place // 2) + word(count) + b"\x00", WIDE)


FOR_EVER = [routine(A, [], (0, 0), (call(A, 0), []), (RFALSE, [], slots(0)))]

# ---- plays: the main code, its routines, what globals may be, what is printed

PLAYS = [
    ("a branch that returns 1", printing(call(A, 0), (1, 1)), [routine(A, [0], (1, 1), (b"\xa0\x01\xc1", [(0, 0)]), RFALSE)], ZERO, b"1"),
    ("a call of 0", printing(b"\xe0\x7f\x00\x00", (0, 0)), [], ZERO, b"0"),
    ("a call of 0 with arguments", printing(b"\xe0\x57\x00\x07\x08\x00", (0, 0)), [], ZERO, b"0"),
    ("a call of 0 for a global", [b"\x0d\x10\x05", b"\xe0\x7f\x00\x10", PRINT_FIRST, QUIT], [], {16: (0, 5)}, b"0"),
    ("a call of a global that is 0", printing(b"\xe0\xbf\x10\x00", (0, 0)), [], ZERO, b"0"),
    (
        "a call of 0 that pops its argument",
        [PUSH + b"\x07", (PUSH + b"\x08", slots(7)), (b"\xe0\x6f\x00\x00\x00", slots(7, 8)), (PRINT_TOP, slots(7, 0)), (PRINT_TOP, slots(7)), QUIT],
        [],
        ZERO,
        b"07",
    ),
    ("a result for a global", [call(A, 16), PRINT_FIRST, QUIT], [constant(A, 5)], {16: (0, 5)}, b"5"),
    (
        "the caller's stack stays",
        [PUSH + b"\x03", (call(A, 0), slots(3)), (PRINT_TOP, slots(3, 1)), (PRINT_TOP, slots(3)), QUIT],
        [routine(A, [], (1, 1), (PUSH + b"\x05", []), (PUSH + b"\x06", [], slots(5)), (RTRUE, [], slots(5, 6)))],
        ZERO,
        b"13",
    ),
    (
        "a global that a routine assigns",
        [call(A, 17), PRINT_FIRST, QUIT],
        [routine(A, [], (1, 1), (b"\x0d\x10\x05", []), (RTRUE, []))],
        {16: (0, 5), 17: (0, 1)},
        b"5",
    ),
    (
        "a routine that is called twice",
        [call(A, 0, 2), (call(A, 0, 3), interval(2, 3)), (PRINT_TOP, interval(2, 3) * 2), (PRINT_TOP, interval(2, 3)), QUIT],
        [routine(A, [0], (2, 3), (RET_FIRST, [(2, 3)]))],
        ZERO,
        b"32",
    ),
    (
        "two routines that call each other",
        printing(call(A, 0, 5), (0, 1)),
        [
            # the first says whether its local is even, the second whether it is odd
            routine(A, [0], (0, 1), (b"\xa0\x01\xc1", [(0, 5)]), (b"\x96\x01", [(1, 5)]), (call_with(B, 0, 1), [(0, 4)]), (RET_POPPED, [(0, 4)], interval(0, 1))),
            routine(B, [0], (0, 1), (b"\xa0\x01\xc0", [(0, 4)]), (b"\x96\x01", [(1, 4)]), (call_with(A, 0, 1), [(0, 3)]), (RET_POPPED, [(0, 3)], interval(0, 1))),
        ],
        ZERO,
        b"0",
    ),
    (
        "a count that returns",
        [call(A, 0), (PRINT_TOP, interval(1, 5)), PRINT_FIRST, QUIT],
        [routine(A, [], (1, 5), (b"\x05\x10\x00\xc1", []), (ret(5), []))],
        {16: WIDE},
        b"11",
    ),
    (
        "a loop in a routine",
        printing(call(A, 0, 3), (1, 1)),
        [routine(A, [0], (1, 1), (b"\xe6\xbf\x01", [(1, 3)]), (b"\x04\x01\x01\xc1", [(1, 3)]), (b"\x8c\xff\xf8", [(1, 2)]))],
        ZERO,
        b"3211",
    ),
    ("a quit in a routine", [call(A, 0), (PRINT_TOP, ANY), QUIT], [routine(A, [], WIDE, (SAY_YES, []), (QUIT, []))], ZERO, b"y"),
    ("a routine above 64 KiB", printing(call(HIGH, 0), (7, 7)), [constant(HIGH, 7)], ZERO, b"7"),
    (
        "a return to a place above 64 KiB",
        printing(call(HIGH, 0), (7, 7)),
        [constant(A, 7), routine(HIGH, [], (7, 7), (call(A, 0), []), (RET_POPPED, [], slots(7)))],
        ZERO,
        b"7",
    ),
    ("no level", deep(0), [LEVELS], ZERO, b"0"),
    ("1,000 levels", deep(1000), [LEVELS], ZERO, b"1000"),
    ("as many levels as there may be", deep(1023), [LEVELS], ZERO, b"1023"),
]

# ---- plays by a certificate that names no limit that a frame limit ends, and how many steps they take

LIMITS = [
    ("a level too many", deep(1024), [LEVELS], b"", 3072),
    ("a routine that calls itself for ever", [HELLO, call(A, 0), (PRINT_TOP, slots(0)), QUIT], FOR_EVER, b"hello", 1025),
    (
        "1,024 frames above the first",
        [call(A, 0), (PRINT_TOP, slots(0)), QUIT],
        [routine(A, [], (0, 0), (SAY_YES, []), (NOP, []), (call(A, 0), []), (RFALSE, [], slots(0)))],
        b"y" * 1024,
        3072,
    ),
]

# ---- refused: the main code, its routines, what globals may be, the rule that is broken, and how the checked machine plays all the
# same

TAKES_6 = [routine(A, [0], (1, 1), (RTRUE, [(0, 6)]))]
GIVES_1 = [routine(A, [], (1, 1), (RTRUE, []))]

REFUSED = [
    ("a result for a local that isn't there", [call(A, 1), QUIT], GIVES_1, ZERO, "I3 at 00324", fault("F5 at 00324")),
    (
        "a result for a second local",
        [call(A, 0), (QUIT, ONE)],
        [routine(A, [0], (1, 1), (call(B, 2), [(0, 0)]), (RTRUE, [(0, 0)])), constant(B, 5)],
        ZERO,
        "I3 at 00363",
        fault("F5 at 00363"),
    ),
    ("an argument past what is stated", printing(call(A, 0, 7), (1, 1)), TAKES_6, ZERO, "I12 at 00324", printed(b"1")),
    (
        "an argument whose range goes past what is stated",
        printing(call_with(A, 0, 16), (1, 1)),
        TAKES_6,
        {16: (-1, 6)},
        "I12 at 00324",
        printed(b"1"),
    ),
    (
        "an initial word past what is stated",
        printing(call(A, 0), (1, 1)),
        [routine(A, [7], (1, 1), (RTRUE, [(0, 6)]))],
        ZERO,
        "I12 at 00324",
        printed(b"1"),
    ),
    (
        "a level more than is stated",
        printing(call(A, 0, 7), WIDE),
        [routine(A, [0], WIDE, (call_with(A, 0, 1), [(0, 6)]), (RTRUE, [(0, 6)], ANY))],
        ZERO,
        "I12 at 00324",
        ended("frame limit"),
    ),
    ("a routine that isn't listed", printing(call(A, 0), (1, 1)), [routine(A, [], None, RTRUE)], ZERO, "I12 at 00324", printed(b"1")),
    (
        "a place between two routines",
        printing(call(B, 0), (1, 1)),
        [constant(A, 1), routine(B, [], None, RTRUE), constant(C, 1)],
        ZERO,
        "I12 at 00324",
        printed(b"1"),
    ),
    (
        "a routine whose first instruction isn't listed",
        printing(call(A, 0), (1, 1)),
        [routine(A, [], (1, 1), RTRUE)],
        ZERO,
        "I12 at 00324",
        printed(b"1"),
    ),
    (
        "a routine that begins with a stack",
        printing(call(A, 0), (1, 1)),
        [routine(A, [], (1, 1), (RTRUE, [], slots(3)))],
        ZERO,
        "I12 at 00324",
        printed(b"1"),
    ),
    (
        "a routine that begins in the main code",
        [b"\x8c\x00\x04", (NOP + b"\x00", UNLISTED), call(0x328, 16), QUIT],
        [],
        ZERO,
        "I12 at 00329",
        ended("frame limit"),
    ),
    ("a call of what isn't known", printing(b"\xe0\xbf\x10\x00", (0, 0)), [], {16: (0, 1)}, "I12 at 00324", printed(b"0")),
    (
        "a call of what may be 0 or a routine",
        printing(b"\xe0\xbf\x10\x00", (0, 1)),
        GIVES_1,
        {16: (0, A // 2)},
        "I12 at 00324",
        printed(b"0"),
    ),
    ("a call behind the end of memory", printing(call(0x1FFFE, 0), (0, 0)), [], ZERO, "I12 at 00324", fault("F3 at 00324")),
    (
        "a routine of 16 locals",
        printing(call(A, 0), (1, 1)),
        [routine(A, [0] * 16, None, RTRUE)],
        ZERO,
        "I12 at 00324",
        fault("F3 at 00324"),
    ),
    (
        "a routine whose locals are cut off",
        printing(call(A, 0), (1, 1)),
        [routine(A, [], None, b""), routine(B, [], None, b"")],
        ZERO,
        "I12 at 00324",
        fault("F2 at 00361"),
    ),
    (
        "a routine whose head is no longer one",
        [b"\xcd\x4f\x10\x10\x00", call(0x40, 17), QUIT],
        [],
        {16: (0, 4096)},
        "I12 at 00329",
        fault("F3 at 00329"),
    ),
    ("no such routine before no such local", [call(0x1FFFE, 1), QUIT], [], ZERO, "I3 at 00324", fault("F3 at 00324")),
    ("a call of 0 for a local that isn't there", [b"\xe0\x7f\x00\x01", QUIT], [], ZERO, "I3 at 00324", fault("F5 at 00324")),
    ("an argument off an empty stack", [call_with(A, 17, 0), QUIT], TAKES_6, {17: (0, 1)}, "I2 at 00324", fault("F4 at 00324")),
    ("a result past what a global may be", [call(A, 16), PRINT_FIRST, QUIT], [constant(A, 5)], {16: (0, 4)}, "I16 at 00324", printed(b"5")),
    (
        "a result past what the caller's local may be",
        printing(call(A, 0), (0, 4)),
        [routine(A, [0], (0, 4), (call(B, 1), [(0, 0)]), (RET_FIRST, [(0, 4)])), constant(B, 5)],
        ZERO,
        "I4 at 00363",
        printed(b"5"),
    ),
    (
        "a result for a stack of 64",
        [(PUSH + b"\x01", slots(1) * it) for it in range(64)] + [(call(0x400, 0), slots(1) * 64), (QUIT, UNLISTED)],
        [constant(0x400, 5)],
        ZERO,
        "I17 at 003e4",
        printed(b""),
    ),
    (
        "a number past what a routine may give",
        printing(call(A, 0), (0, 6)),
        [routine(A, [], (0, 6), (ret(7), []))],
        ZERO,
        "I13 at 00361",
        printed(b"7"),
    ),
    (
        "a branch that returns past what a routine may give",
        printing(call(A, 0), (0, 0)),
        [routine(A, [0], (0, 0), (b"\xa0\x01\xc1", [(0, 0)]), RFALSE)],
        ZERO,
        "I13 at 00363",
        printed(b"1"),
    ),
    (
        "a text behind which 1 is returned",
        printing(call(A, 0), (0, 0)),
        [routine(A, [], (0, 0), (PRINT_RET, []))],
        ZERO,
        "I13 at 00361",
        printed(b"hello\n1"),
    ),
    (
        "a return that can't be listed so",
        printing(call(A, 0), (1, 1)),
        [routine(A, [0], (1, 1), (b"\xa0\x01\xc1", [(0, 0)]), (RFALSE, [(0, 0)]))],
        ZERO,
        "I13 at 00366",
        printed(b"1"),
    ),
    (
        "a return that may be reached and isn't listed",
        printing(call(A, 0), (1, 1)),
        [routine(A, [0], (1, 1), (b"\xa0\x01\xc1", [(0, 1)]), RFALSE)],
        ZERO,
        "I4 at 00363",
        printed(b"1"),
    ),
    ("ret in the main code", [ret(5)], [], ZERO, "I13 at 00324", fault("F15 at 00324")),
    ("rtrue in the main code", [RTRUE], [], ZERO, "I13 at 00324", fault("F15 at 00324")),
    ("rfalse in the main code", [RFALSE], [], ZERO, "I13 at 00324", fault("F15 at 00324")),
    ("print_ret in the main code", [PRINT_RET], [], ZERO, "I13 at 00324", fault("F15 at 00324")),
    ("ret_popped in the main code", [PUSH + b"\x01", (RET_POPPED, ONE)], [], ZERO, "I13 at 00327", fault("F15 at 00327")),
    ("ret_popped of an empty stack in the main code", [RET_POPPED], [], ZERO, "I2 at 00324", fault("F4 at 00324")),
    (
        "a return behind another",
        printing(call(A, 0), (1, 1))[:2] + [RTRUE],
        GIVES_1,
        ZERO,
        "I13 at 0032c",
        Answer(3, b"1", b"fault: F15 at 0032c\n"),
    ),
    (
        "ret_popped of the caller's word",
        [PUSH + b"\x05", (call(A, 0), slots(5)), (QUIT, slots(5) + ANY)],
        [routine(A, [], WIDE, (RET_POPPED, []))],
        ZERO,
        "I2 at 00361",
        fault("F4 at 00361"),
    ),
    (
        "a count of the caller's word",
        [PUSH + b"\x05", (call(A, 0), slots(5)), (QUIT, slots(5, 1))],
        [routine(A, [], (1, 1), (b"\x95\x00", []), (RTRUE, []))],
        ZERO,
        "I2 at 00361",
        fault("F4 at 00361"),
    ),
    ("a jump into a routine", [b"\x8c\x00\x3c"], GIVES_1, ZERO, "I4 at 00324", fault("F15 at 00361")),
    (
        "a jump out of a routine",
        [call(A, 16), QUIT],
        [routine(A, [], (0, 0), (b"\x8c\xff\xc2", []))],
        ZERO,
        "I4 at 00361",
        ended("frame limit"),
    ),
    (
        "a routine that runs into what isn't one",
        [call(A, 16), QUIT],
        [routine(A, [], (0, 0), (NOP, []), b"\xbe")],
        ZERO,
        "I4 at 00361",
        fault("F2 at 00362"),
    ),
]

# ---- listings: the main code, its routines, and the addresses, routines and names, or what is at fault

LISTINGS = [
    (
        "a routine",
        printing(call(A, 0), WIDE),
        GIVES_1,
        [(0x324, 0, "call"), (0x329, 0, "print_num"), (0x32C, 0, "quit"), (0x361, 1, "rtrue")],
    ),
    (
        "routines are numbered as they lie",
        [call(C, 16), call(A, 16), QUIT],
        [constant(A, 1), routine(C, [0], None, RTRUE)],
        [(0x324, 0, "call"), (0x329, 0, "call"), (0x32E, 0, "quit"), (0x361, 1, "ret"), (0x3E3, 2, "rtrue")],
    ),
    (
        "a routine that a routine calls, and one that isn't called",
        [call(C, 16), QUIT],
        [constant(A, 1), constant(B, 2), routine(C, [], None, call(A, 0), RET_POPPED)],
        [(0x324, 0, "call"), (0x329, 0, "quit"), (0x361, 1, "ret"), (0x3E1, 2, "call"), (0x3E6, 2, "ret_popped")],
    ),
    (
        "a routine that calls itself",
        [call(A, 16), QUIT],
        FOR_EVER,
        [(0x324, 0, "call"), (0x329, 0, "quit"), (0x361, 1, "call"), (0x366, 1, "rfalse")],
    ),
    ("a call of 0, listed", [b"\xe0\x7f\x00\x10", QUIT], [], [(0x324, 0, "call"), (0x328, 0, "quit")]),
    ("a call by a variable", [b"\xe0\xbf\x10\x10", QUIT], [constant(A, 1)], [(0x324, 0, "call"), (0x328, 0, "quit")]),
    ("a routine among the globals", [b"\xe0\x7f\x20\x10", QUIT], [], "U1 at 00041"),
    (
        "what follows each return",
        [call(A, 16), call(B, 16), call(C, 16), QUIT],
        [
            routine(A, [], None, b"\x90\x00\xc4", RTRUE, b"\xbe", RET_POPPED, b"\xbe"),
            routine(B, [], None, b"\xa0\x10\xc7", PRINT_RET[:4] + b"\x85", ret(1), b"\xbe"),
            routine(C, [], None, b"\xa0\x10\x40", RFALSE, b"\xbe"),
        ],
        [
            (0x324, 0, "call"), (0x329, 0, "call"), (0x32E, 0, "call"), (0x333, 0, "quit"),
            (0x361, 1, "jz"), (0x364, 1, "rtrue"), (0x366, 1, "ret_popped"),
            (0x3A1, 2, "jz"), (0x3A4, 2, "print_ret"), (0x3A9, 2, "ret"),
            (0x3E1, 3, "jz"), (0x3E4, 3, "rfalse"),
        ],
    ),
    (
        "an instruction of two routines",
        [call(A, 16), call(B, 16), QUIT],
        [routine(A, [], None, b"\x8c\x00\x3f"), constant(B, 1)],
        "U2 at 003a1",
    ),
    ("an instruction of the main code and of a routine", [b"\x8c\x00\x04", NOP + b"\x00", call(0x328, 16), QUIT], [], "U2 at 00329"),
    ("a routine of 16 locals, listed", [call(A, 16), QUIT], [routine(A, [0] * 16, None, RTRUE)], "U1 at 00360"),
    ("a routine behind memory", [call(A, 16), QUIT], [], "U1 at 00360"),
    ("a routine without code", [call(A, 16), QUIT], [routine(A, [5], None)], "U1 at 00363"),
    ("of a call and a routine the one that lies lower", [call(A, 16), b"\xbe"], [routine(A, [0] * 16, None, RTRUE)], "U1 at 00329"),
]


def lines(listed):
    return "".join(f"{address:05x} {number} {name}\n" for address, number, name in listed).encode()


def tells(words, values):
    """A routine that prints its locals, each with a space behind it, and gives 1."""
    said = [it for number in range(1, len(words) + 1) for it in (bytes([0xE6, 0xBF, number]), b"\xe5\x7f\x20")]
    return routine(A, words, (1, 1), *((it, values) for it in said + [RTRUE]))


def see_results(plays):
    for name, routines, slot, text in RESULTS:
        plays.answers(name, files(printing(call(A, 0), slot), routines, {17: (-3, 4)}), printed(text))
        for tight in tighter(*slot):
            plays.refuses(f"{name}, in {tight}", files(printing(call(A, 0), tight), routines, {17: (-3, 4)}), "I4 at 00324")


def see_arguments(plays):
    for name, before, calling_line, words, values, locals_ in ARGUMENTS:
        main = [*before, calling_line, PRINT_SECOND, QUIT]
        known = {16: (-5, 5), 17: (0, 1)}
        at = placed(main)[len(before)][0]
        text = "".join(f"{it} " for it in locals_) + "1"
        plays.answers(name, files(main, [tells(words, values)], known), printed(text.encode()))
        for tight in each_tighter(values):
            plays.refuses(f"{name}, {tight}", files(main, [tells(words, tight)], known), f"I12 at {at:05x}")


def see_branches(plays):
    for name, instruction, local, number in BRANCHES:
        a = routine(A, [0], (0, 5), (instruction, [(0, 10)]), (ret(5), [WIDE]))
        given = files(printing(call(A, 0, local), (0, 5)), [a])
        plays.answers(name, given, printed(str(number).encode()))


def see_limits(plays):
    """A frame limit is told where the step would be made, at the end of the budget too, and not a step before."""
    for name, main, routines, text, steps in LIMITS:
        given = files(main, routines)
        for budget, end in [(steps + 5, "frame limit"), (steps, "frame limit"), (steps - 1, "budget")]:
            answer = plays.program.run(["play", "--budget", str(budget), "story", "certificate"], given)
            plays.count.is_answer(f"{name}, in {budget} steps", answer, Answer(0, text, f"end: {end}\n".encode()))


def see_calls(program, count):
    plays = Plays(program, count)
    see_results(plays)
    see_arguments(plays)
    see_branches(plays)
    see_limits(plays)
    for name, main, routines, values, text in PLAYS:
        plays.answers(name, files(main, routines, values), printed(text))
    for name, main, routines, values, rule, played in REFUSED:
        given = files(main, routines, values)
        plays.refuses(name, given, rule)
        count.is_answer(f"{name}, checked", plays.play(given, []), played)
    for name, main, routines, wanted in LISTINGS:
        answer = Answer(1, b"", f"refused: {wanted}\n".encode()) if isinstance(wanted, str) else printed(lines(wanted))
        count.is_answer(f"{name}, listed", program.run(["list", "story"], {"story": story(code_of(main, routines))}), answer)
