#!/usr/bin/env python3
"""Of two mistakes the one that is told. Of each two codes of a list there are files that have both, or it is said why none have.

    orders.py PROGRAM

Most files come of one that is sound, and of a change for each mistake: both changes together make one that has both. What is told then
is worked out from the order in which docs/MACHINE.md and docs/CERTIFICATE.md ask. Which codes no run shows is said too, so that a list
that grows has a row for each new pair.
"""
import itertools
import sys

from program import Answer, Count, Program, side_by_side
from samples import GLOBALS, NEW_LINE, QUIT, RELEASE, SERIAL, STATIC, certificate, changed, interval, story, with_objects, word
from saves import RESTORES, RESTORES_LISTED, chunk

LIST, CHECK, PLAY = ["list", "story"], ["check", "story", "certificate"], ["play", "story"]
WIDE = (-32768, 32767)


class Orders:
    """The runs of a list of codes, with the pairs that have one, and those that have none for a reason."""

    def __init__(self, letter, last):
        self.letter, self.last = letter, last
        self.runs, self.shown, self.apart = [], set(), {}

    def has(self, mistakes, told, words, files, what=""):
        """These files have these mistakes, and the program tells one of them."""
        name = " and ".join(f"{self.letter}{it}" for it in mistakes) or f"no {self.letter}"
        self.runs.append((f"{name}{what and ', '}{what}", told, words, files))
        if len(mistakes) == 2:
            self.shown.add(mistakes)

    def none_has(self, pairs, why):
        for pair in pairs:
            self.apart[pair] = why

    def pairs(self):
        return itertools.combinations(range(1, self.last + 1), 2)

    def see(self, program, count):
        for pair in self.pairs():
            ways = (pair in self.shown) + (pair in self.apart)
            count.see(ways == 1, f"{self.letter}{pair[0]} and {self.letter}{pair[1]}: {'both shown and kept apart' if ways else 'no run, and no reason'}")
        answers = side_by_side(lambda run: program.run(*run[2:]), self.runs)
        for (name, told, _, _), answer in zip(self.runs, answers):
            count.is_answer(name, answer, told)


def refused(code):
    return Answer(1, b"", f"refused: {code}\n".encode())


def combined(orders, changes, sound, run):
    """Runs of what has each mistake alone, and of what has two. A mistake is a change of what is sound; the lower number is told."""
    for number, change in changes.items():
        orders.has((number,), refused(f"{orders.letter}{number}"), *run(change(sound)))
    for first, second in itertools.combinations(changes, 2):
        if (first, second) not in orders.shown and (first, second) not in orders.apart:
            orders.has((first, second), refused(f"{orders.letter}{first}"), *run(changes[first](changes[second](sound))))


# ---- what keeps a story from being loaded

LOADING = {
    11: lambda it: changed(it, 0x06, 0, 0),
    10: lambda it: changed(it, 0x361, 0xFF),  # a first entry above the second, whether they have seven bytes or three
    9: lambda it: changed(it, 0x35E, 3),
    8: lambda it: changed(it, 0x35F, 0x7F),  # a dictionary of 32,514 entries
    7: lambda it: changed(it, 0x0A, 0, 63),
    6: lambda it: changed(it, 0x0C, 0, 63),
    5: lambda it: changed(it, 0x0E, 0, 63),
    4: lambda it: changed(it, 0x1A, 0x7F, 0xFF),  # a length above the file's
    3: lambda it: changed(it, 0, 5),
    2: lambda it: it.ljust(131073, b"\0"),
    1: lambda it: it[:63],
}


def loading():
    orders = Orders("L", 12)
    run = lambda file: (LIST, {"story": file})
    orders.none_has([(1, 2)], "a file is too short or too long")
    orders.none_has([(it, 12) for it in range(1, 12)], "want of memory stands outside the order; tests/refusals has it")
    # in a file of 131,073 bytes a stated length can only be too small
    orders.has((2, 4), refused("L2"), *run(changed(with_objects(), 0x1A, 0, 31).ljust(131073, b"\0")))
    # a dictionary within the first 63 bytes
    for number, length in ((9, 3), (10, 4)):
        inside = changed(with_objects(), 0x08, 0, 0x20)
        orders.has((1, number), refused("L1"), *run(changed(inside, 0x20, 0, length, 0, 2, *b"\xff\xff\xff\xff", *bytes(4))[:63]))
    combined(orders, dict(sorted(LOADING.items())), with_objects(), run)
    return orders


# ---- what keeps a story from being listed

def listing():
    orders = Orders("U", 4)
    run = lambda code: (LIST, {"story": story(code)})
    # a branch of the main code and the jump of a routine at 330 lead to 32D
    both = lambda at_it: b"\x90\x05\xc8" + b"\xe0\x3f\x01\x98\0" + QUIT + at_it.ljust(3, b"\0") + b"\0" + b"\x8c\xff\xfb"
    orders.has((1, 2), refused("U1 at 0032d"), *run(both(b"\xbe")))
    orders.has((2,), refused("U2 at 0032d"), *run(both(QUIT)))
    orders.has((2, 3), refused("U2 at 0032d"), *run(both(b"\xac\x10")))
    orders.none_has([(1, 3)], "a jump is an instruction")
    orders.none_has([(it, 4) for it in range(1, 4)], "want of memory stands outside the order; tests/refusals has it")
    return orders


# ---- what keeps an instruction from being decoded: `list` says of each that it is U1, so the values are those of zcode's proofs

def decoding():
    orders = Orders("J", 5)
    orders.none_has([(1, 2), (1, 3), (1, 4), (1, 5), (3, 4)], "no run tells which; `first_faults`, `faults_read` and `instructions_read` of zcode's proofs do")
    orders.none_has([(2, 3)], "a number is that of no opcode, or of one that isn't played")
    orders.none_has([(2, 4), (2, 5)], "what is no opcode asks for no operands and no text")
    orders.none_has([(3, 5)], "none of those that aren't played prints the text behind it")
    orders.none_has([(4, 5)], "`print` and `print_ret` have a form without operands alone")
    return orders


# ---- a certificate's fields, in their order: the first that is wrong is told

FIELDS = [
    ("magic", b"ZPCC"), ("version", b"\x01"), ("release", word(1)), ("serial", b"260101"), ("checksum", word(0)), ("length", bytes(4)),
    ("ranges", word(2)), ("range", b"\x02\x20\x02\x21"), ("second range", b"\x02\x30"), ("its end", b"\x02\x31"),
    ("global", interval(0, 0)), ("globals", interval(0, 0) * 239),
    ("routines", word(2)), ("routine", b"\0\0\x03\x26"), ("locals", b"\x01"), ("result", interval(0, 0)),
    ("second routine", b"\0\0\x03\x30"), ("its locals", b"\0"), ("its result", interval(0, 0)),
    ("instructions", b"\0\0\0\2"), ("address", b"\0\0\x03\x24"), ("number", word(0)), ("height", b"\x01"), ("slot", interval(0, 0)),
    ("second address", b"\0\0\x03\x26"), ("its number", word(1)), ("its height", b"\0"), ("its local", interval(0, 0)),
]

# What each mistake puts into a field.
WRONG_FIELDS = {
    1: {"magic": b"ZPCD"},
    2: {"version": b"\x09"},
    5: {"second range": b"\x02\x22", "its end": b"\x02\x2f", "second routine": b"\0\0\x03\x26", "second address": b"\0\0\x03\x24"},
    6: {"global": interval(1, 0), "result": interval(0, -1), "slot": interval(5, 4), "its local": interval(1, 0)},
    7: {"routine": b"\0\x02\0\0", "locals": b"\x10", "address": b"\0\x02\0\0", "number": word(3), "height": b"\x41", "its height": b"\x41"},
}


def spelled(*others, cut=None, more=b""):
    """A certificate with these fields in the place of its own, cut off within a field, or followed by more."""
    file = b""
    for name, field in FIELDS:
        field = dict(others).get(name, field)
        if name == cut:
            return file + field[:-1]
        file += field
    return file + more


def spelling():
    orders = Orders("K", 8)
    run = lambda file: (CHECK, {"story": story(QUIT), "certificate": file})
    order = [name for name, _ in FIELDS]
    orders.none_has([(it, 8) for it in range(1, 8)], "want of memory stands outside the order; tests/refusals has it")
    orders.none_has([(3, 4)], "nothing follows where a file is cut off")
    # one that is spelled well is of another story
    orders.has((), refused("S1"), *run(spelled()))
    orders.has((3,), refused("K3"), *run(spelled(cut="its local")))
    orders.has((4,), refused("K4"), *run(spelled(more=b"\0")))
    for number, fields in WRONG_FIELDS.items():
        for name, field in fields.items():
            orders.has((number,), refused(f"K{number}"), *run(spelled((name, field))))
            # a field that is cut off isn't looked at; what comes later isn't either
            pair = tuple(sorted((number, 3)))
            if name != "version":
                orders.has(pair, refused("K3"), *run(spelled((name, field), cut=name)))
            for behind in order[order.index(name) + 1 :][:1]:
                orders.has(pair, refused(f"K{number}"), *run(spelled((name, field), cut=behind)))
            orders.has(tuple(sorted((number, 4))), refused(f"K{number}"), *run(spelled((name, field), more=b"\0")))
    for first, second in itertools.combinations(WRONG_FIELDS, 2):
        for name, other in itertools.product(WRONG_FIELDS[first], WRONG_FIELDS[second]):
            told = first if order.index(name) < order.index(other) else second
            both = (name, WRONG_FIELDS[first][name]), (other, WRONG_FIELDS[second][other])
            orders.has((first, second), refused(f"K{told}"), *run(spelled(*both)))
    return orders


# ---- rules of the story: changes of a story of two objects and of what its certificate has

def with_bytes(place, *new):
    return lambda it: (changed(it[0], place, *new), it[1])


def with_fields(**fields):
    return lambda it: (it[0], {**it[1], **fields})


FITTING = {
    1: with_fields(release=2),
    2: with_fields(addresses=[0x371]),
    3: with_fields(routines=[(0x371, 0)]),
    4: with_bytes(GLOBALS + 1, 1),
    5: with_bytes(0x278, 0x20),  # a property 0
    6: with_bytes(0x262, 3),  # a parent that is no object
    7: with_bytes(0x29A, 0x7F),  # an abbreviation behind memory
    8: with_fields(ranges=[(0x3F, 0x3F)]),  # a frozen byte of the header
}


def fitting():
    orders = Orders("S", 8)
    sound = with_objects(NEW_LINE + QUIT), {"addresses": [0x370, 0x371]}
    run = lambda it: (CHECK, {"story": it[0], "certificate": certificate(it[0], **it[1])})
    orders.has((), Answer(0, b"accepted\n", b""), *run(sound))
    combined(orders, FITTING, sound, run)
    return orders


# ---- instructions

NUMBERS = {
    **{name: (0xC0, number) for number, name in enumerate("je jl jg dec_chk inc_chk jin test or and test_attr set_attr clear_attr store "
        "insert_obj loadw loadb get_prop get_prop_addr get_next_prop add sub mul div mod".split(), 1)},
    **{name: (0x80, number) for number, name in enumerate("jz get_sibling get_child get_parent get_prop_len inc dec print_addr none remove_obj "
        "print_obj ret jump print_paddr load not".split())},
    **{name: (0xB0, number) for number, name in enumerate("rtrue rfalse print print_ret nop save restore restart ret_popped pop quit new_line "
        "show_status verify".split())},
    **{name: (0xE0, number) for number, name in enumerate("call storew storeb put_prop sread print_char print_num random push pull".split())},
}

STORES = set("or and loadw loadb get_prop get_prop_addr get_next_prop add sub mul div mod get_sibling get_child get_parent get_prop_len load not "
    "call random".split())
BRANCHES = set("je jl jg dec_chk inc_chk jin test test_attr jz get_sibling get_child save restore verify".split())


class Variable:
    """An operand that is a variable, by its number (Z 4.2.2)."""

    def __init__(self, number):
        self.number = number


POP, LOCAL, UNKNOWN, OTHER = Variable(0), Variable(1), Variable(18), Variable(19)
RESULT = 17  # the global that takes results


def encoded(name, operands, store, branch):
    """The bytes of an instruction of large constants and variables (Z 4.3 to 4.7)."""
    kind, number = NUMBERS[name]
    types = [2 if isinstance(it, Variable) else 0 for it in operands]
    if kind == 0x80:
        head = bytes([0x80 | types[0] << 4 | number])
    elif kind == 0xB0:
        head = bytes([0xB0 | number])
    else:
        first, second, third, fourth = (types + [3] * 4)[:4]
        head = bytes([kind | number, 64 * first + 16 * second + 4 * third + fourth])
    given = b"".join(bytes([it.number]) if isinstance(it, Variable) else word(it % 65536) for it in operands)
    return head + given + (bytes([store]) if name in STORES else b"") + (bytes([branch]) if name in BRANCHES else b"")


class Mistake:
    """A change of an instruction and of what is around it: operands by their place, and the rest by name."""

    def __init__(self, number, operands=None, rank=None, **around):
        self.number, self.operands, self.rank, self.around = number, operands or {}, rank, around

    def fits(self, other):
        """Whether both can be there at once."""
        own = {**self.operands, **{it: 0 for it in self.around if it not in ("values", "bytes")}}
        its = {**other.operands, **{it: 0 for it in other.around if it not in ("values", "bytes")}}
        held = lambda it, what: it.around.get(what, {})
        agree = all(held(self, what).get(key, value) == value for what in ("values", "bytes") for key, value in held(other, what).items())
        return not own.keys() & its.keys() and agree


def made_of(name, operands, mistakes, following=QUIT):
    """The story in which an instruction stands at 371 with these mistakes, and its certificate. It is never reached, as what is at 370
    quits, so that a certificate can say of its stack what it likes."""
    operands, around, values, others = list(operands), {}, {RESULT: WIDE, 18: WIDE, 19: WIDE}, {}
    for it in mistakes:
        for place, operand in it.operands.items():
            operands[place] = operand
        around.update(it.around)
        values.update(it.around.get("values", {}))
        others.update(it.around.get("bytes", {}))
    code = encoded(name, operands, around.get("store", RESULT), around.get("branch", 0xC2))
    made = with_objects(around.get("before", QUIT) + code + following)
    for place, byte in others.items():
        made = changed(made, place, byte)
    start, behind = 0x371, 0x371 + len(code)
    slots = interval(1, 1) * around.get("height", 0)
    stacks = {start: slots, behind: slots or (interval(5, 5) if name == "push" else b"")}
    listed = [0x370, start] + ([] if around.get("unlisted") else [behind])
    ranges = around.get("ranges", [(0x280, 0x280), (0x290, 0x290)])
    return {"story": made, "certificate": certificate(made, listed, stacks=stacks, own=values, ranges=ranges)}


# ---- rules of instructions: the instruction, operands with which it is accepted, and mistakes of its own

TIGHT = {"values": {RESULT: (1, 1)}, "bytes": {GLOBALS + 3: 1}}  # what takes the result may be 1 alone, and is
MAY_BE_0 = {"values": {18: (0, 1)}}
OBJECT_3 = {"values": {16: (0, 3)}}


def of_object(place=0):
    return [Mistake(5, {place: 0}), Mistake(5, {place: UNKNOWN}, **MAY_BE_0)]


# which variable is named isn't known
UNKNOWN_VARIABLE = Mistake(15, {0: OTHER}, values={19: (17, 18)}, bytes={GLOBALS + 7: 17})

INSTRUCTIONS = [
    ("je", [UNKNOWN, 5], []), ("jl", [UNKNOWN, 5], []), ("jg", [5, UNKNOWN], []), ("jz", [UNKNOWN], []), ("test", [UNKNOWN, 5], []),
    ("verify", [], []), ("save", [], []), ("add", [7, 5], []), ("or", [7, 5], []), ("not", [5], []), ("random", [5], []),
    ("nop", [], []), ("new_line", [], []), ("print_num", [5], []), ("print_char", [65], []),
    ("push", [5], [Mistake(17, height=64)]),
    ("inc", [18], [UNKNOWN_VARIABLE, Mistake(16, {0: RESULT}, **TIGHT), Mistake(3, {0: 1}), Mistake(2, {0: 0}, height=0)]),
    ("inc_chk", [18, 5], [UNKNOWN_VARIABLE, Mistake(16, {0: RESULT}, **TIGHT), Mistake(3, {0: 1}), Mistake(2, {0: 0}, height=0)]),
    ("dec", [18], [UNKNOWN_VARIABLE, Mistake(16, {0: RESULT}, **TIGHT), Mistake(3, {0: 1}), Mistake(2, {0: 0}, height=0)]),
    ("dec_chk", [18, 5], [UNKNOWN_VARIABLE, Mistake(16, {0: RESULT}, **TIGHT), Mistake(3, {0: 1}), Mistake(2, {0: 0}, height=0)]),
    ("store", [18, 5], [UNKNOWN_VARIABLE, Mistake(16, {0: RESULT}, **TIGHT), Mistake(3, {0: 1}), Mistake(2, {0: 0}, height=0)]),
    ("load", [18], [UNKNOWN_VARIABLE, Mistake(3, {0: 1}), Mistake(2, {0: 0}, height=0)]),
    ("div", [7, 2], [Mistake(8, {1: 0}), Mistake(8, {1: UNKNOWN})]),
    ("mod", [7, 2], [Mistake(8, {1: 0}), Mistake(8, {1: UNKNOWN})]),
    ("jin", [1, 1], of_object()),
    ("test_attr", [1, 5], [*of_object(), Mistake(6, {1: 32})]),
    ("set_attr", [1, 5], [*of_object(), Mistake(6, {1: 32})]),
    ("clear_attr", [1, 5], [*of_object(), Mistake(6, {1: 32})]),
    ("get_sibling", [1], of_object()), ("get_child", [1], of_object()), ("get_parent", [1], of_object()),
    ("insert_obj", [1, 2], [*of_object(), *of_object(1)]), ("remove_obj", [1], of_object()), ("print_obj", [1], of_object()),
    ("get_prop", [1, 5], [*of_object(), Mistake(7, {1: 32})]),
    ("get_prop_addr", [1, 5], of_object()),
    ("get_next_prop", [1, 5], [*of_object(), Mistake(7, {1: 4})]),
    # object 1 has properties 5 and 3; 3 to 5 has 4 too, and its property 5 is frozen
    ("put_prop", [1, 5, 9], [
        *of_object(), Mistake(7, {1: 4}), Mistake(7, {1: OTHER}, values={19: (3, 5)}, bytes={GLOBALS + 7: 3}), Mistake(9, ranges=[(0x274, 0x274)]),
    ]),
    ("storeb", [0x281, 0, 5], [Mistake(9, {0: 0x35C})]), ("storew", [0x282, 0, 5], [Mistake(9, {1: 0x100})]),
    ("loadb", [0x35D, 0], [Mistake(10, {0: 0xFFF0}), Mistake(10, {1: UNKNOWN})]), ("loadw", [0x35C, 0], [Mistake(10, {0: 0xFFF0})]),
    ("get_prop_len", [0x274], [Mistake(10, {0: 0x9000})]),
    ("print_addr", [0x35A], [Mistake(11, {0: 0x8000})]), ("print_paddr", [0x1AD], [Mistake(11, {0: 0x4000})]),
    # a call of 0, or of what isn't listed too
    ("call", [0, 5], [Mistake(12, {0: 0x1B4}), Mistake(12, {0: UNKNOWN}, values={18: (0, 0x1B4)})]),
    ("show_status", [], [Mistake(18, **OBJECT_3)]),
    ("sread", [0x280, 0x290], [Mistake(18, **OBJECT_3), Mistake(14, {0: 0x361}), Mistake(14, {1: 0xFFFF}), Mistake(14, bytes={0x280: 1})]),
]

# Which opcodes each of these rules asks something of, which is what keeps most of them apart.
ASKED = {
    5: "jin test_attr set_attr clear_attr get_sibling get_child get_parent insert_obj remove_obj print_obj get_prop get_prop_addr get_next_prop put_prop",
    6: "test_attr set_attr clear_attr",
    7: "get_prop get_next_prop put_prop",
    8: "div mod",
    9: "put_prop storeb storew",
    10: "loadb loadw get_prop_len",
    11: "print_addr print_paddr",
    12: "call",
    14: "sread",
    15: "inc dec inc_chk dec_chk store load",
    18: "show_status sread",
}


def mistakes_of(name, operands, own):
    """Its own mistakes, and those that any instruction may have which has what they need."""
    found = list(own)
    for place in range(len(operands)):
        found += [Mistake(2, {place: POP}, height=0), Mistake(3, {place: LOCAL})]
    if name in STORES:
        found += [Mistake(3, store=1), Mistake(16, store=RESULT, **TIGHT), Mistake(17, store=0, height=64)]
    if name in BRANCHES:
        found.append(Mistake(13, branch=0xC0))
    return found + [Mistake(4, unlisted=True)]


def told_rule(name, first, second):
    """Which of two rules is told that an instruction breaks: the one with the lower number, but that a rule asks nothing where another one
    refuses what it would speak of."""
    if second == 15 and first in (2, 3, 4) or first == 13 and second == 15:
        return 15
    if first == 4 and (second in (8, 10, 12, 17) or second in (5, 7) and name in ("get_prop", "get_prop_addr")):
        return second
    return first


def judging():
    orders = Orders("I", 18)
    for name, operands, own in INSTRUCTIONS:
        orders.has((), Answer(0, b"accepted\n", b""), CHECK, made_of(name, operands, []), name)
        mistakes = mistakes_of(name, operands, own)
        for it in mistakes:
            orders.has((it.number,), refused(f"I{it.number} at 00371"), CHECK, made_of(name, operands, [it]), name)
        for one, other in itertools.combinations(sorted(mistakes, key=lambda it: it.number), 2):
            if one.number != other.number and one.fits(other):
                told = refused(f"I{told_rule(name, one.number, other.number)} at 00371")
                orders.has((one.number, other.number), told, CHECK, made_of(name, operands, [one, other]), name)
    asked = {number: set(names.split()) for number, names in ASKED.items()}
    of_value = {13: BRANCHES, 16: STORES | set("inc dec inc_chk dec_chk store".split()), 17: STORES | {"push"}, **asked}
    for number, names in asked.items():
        having = {name for name, _, own in INSTRUCTIONS if any(it.number == number for it in own)}
        assert names == having, (number, names ^ having)
    orders.none_has([pair for pair in orders.pairs() if pair[0] in of_value and pair[1] in of_value and not of_value[pair[0]] & of_value[pair[1]]],
        "no instruction is asked both")
    orders.none_has([(1, it) for it in range(2, 19)], "of what doesn't decode nothing else is asked")
    orders.none_has([(2, 11), (3, 11)], "a text has one operand, of which nothing is asked where it has no value; those behind `print` and "
        "`print_ret` are in static memory, where the instruction is")
    orders.none_has([(2, 17)], "a pop finds no slot on an empty stack, and a push no room on a full one")
    orders.none_has([(16, 17)], "what is given goes to one variable")
    return orders


# ---- faults: the instruction, operands with which it is played, and mistakes of its own, each with the place of its test: operands are
# read from left to right, then come an instruction's own tests in the order of the step table, the result variable, and a return

def fault(number, rank, operands=None, **around):
    return Mistake(number, operands, (2, rank), **around)


def named(place=0):
    """Mistakes of an operand that names a variable."""
    return [fault(16, 0, {place: 256}), fault(4, 0, {place: 0}), fault(5, 0, {place: 1})]


NESTED = {0x35A: 0x84, 0x35B: 0x05}  # each abbreviation uses an abbreviation
FAULTY_NAME = {**NESTED, 0x27A: 0x84, 0x27B: 0x05}  # the name of object 2
ITS_STATUS = {"bytes": {**FAULTY_NAME, GLOBALS + 1: 2}}
TRIPLE = {0x27C: 0x41, 0x280: 0}  # object 2 has property 1 of three bytes

FAULTS = [
    ("add", [7, 5], []), ("div", [7, 2], [fault(10, 0, {1: 0})]), ("mod", [7, 2], [fault(10, 0, {1: 0})]),
    ("je", [5, 5], []), ("print_num", [5], []), ("verify", [], []),
    ("inc", [18], named()), ("inc_chk", [18, 0xFFFF], named()), ("store", [18, 5], named()), ("load", [18], named()),
    ("jin", [2, 1], [fault(6, 0, {0: 0})]),
    ("test_attr", [1, 5], [fault(6, 0, {0: 3}), fault(7, 1, {1: 32})]),
    ("set_attr", [1, 5], [fault(6, 0, {0: 3}), fault(7, 1, {1: 32})]),
    ("insert_obj", [1, 2], [fault(6, 0, {0: 0}), fault(6, 0, {1: 3})]),
    ("get_parent", [1], [fault(6, 0, {0: 0})]), ("get_child", [1], [fault(6, 0, {0: 0})]),
    ("get_prop", [1, 5], [fault(6, 0, {0: 0}), fault(8, 1, {1: 32})]),
    ("get_prop", [2, 1], [fault(9, 2, bytes=TRIPLE)]),
    ("put_prop", [1, 5, 9], [fault(6, 0, {0: 0}), fault(8, 1, {1: 4})]),
    ("get_next_prop", [1, 5], [fault(6, 0, {0: 0}), fault(8, 1, {1: 4})]),
    ("storeb", [0x281, 0, 5], [fault(11, 0, {0: 0x35C})]), ("loadb", [0x35C, 0], [fault(12, 0, {0: 0x8000})]),
    ("get_prop_len", [0x274], [fault(12, 0, {0: 0x9000})]),
    ("print_addr", [0x35A], [fault(13, 0, {0: 0x8000})]), ("print_obj", [1], [fault(6, 0, {0: 3})]), ("print_obj", [2], [fault(13, 1, bytes=FAULTY_NAME)]),
    ("call", [0, 5], [fault(3, 0, {0: 0x4000})]),
    ("show_status", [], [fault(6, 0, bytes={GLOBALS + 1: 3}), fault(13, 1, **ITS_STATUS)]),
    ("sread", [0x280, 0x290], [
        fault(6, 0, bytes={GLOBALS + 1: 3}), fault(13, 1, **ITS_STATUS), fault(12, 2, {0: 0x8000}), fault(12, 2, {1: 0xFFFF}),
        fault(14, 3, {0: 0x280}, bytes={0x280: 1}), fault(14, 3, {1: 0x290}, bytes={0x290: 0}), fault(11, 4, {0: 0x361}), fault(11, 4, {1: 0x361}),
    ]),
]


def faults_of(name, operands, own):
    found = list(own)
    for place in range(len(operands)):
        found += [Mistake(4, {place: POP}, (1, place)), Mistake(5, {place: LOCAL}, (1, place))]
    if name in STORES:
        found.append(Mistake(5, store=1, rank=(3, 0)))
    if name in BRANCHES:
        # the attribute isn't there
        found.append(Mistake(15, branch=0x40 if name == "test_attr" else 0xC0, rank=(4, 0)))
    return found


def ended(number):
    return Answer(3, b"", f"fault: F{number} at 00371\n".encode())


def played(name, operands, mistakes):
    """The story in which an instruction is played with these mistakes, behind one that does nothing."""
    return {"story": made_of(name, operands, [*mistakes, Mistake(0, before=b"\xb4")])["story"]}


def coded(code, **others):
    made = with_objects(code)
    for place, byte in others.get("bytes", {}).items():
        made = changed(made, place, byte)
    return {"story": made}


def faulting():
    orders = Orders("F", 16)
    for name, operands, own in FAULTS:
        mistakes = faults_of(name, operands, own)
        for it in mistakes:
            orders.has((it.number,), ended(it.number), PLAY, played(name, operands, [it]), name)
        for one, other in itertools.combinations(mistakes, 2):
            if one.number != other.number and one.fits(other) and one.rank != other.rank:
                told = min(one, other, key=lambda it: it.rank)
                orders.has(tuple(sorted((one.number, other.number))), ended(told.number), PLAY, played(name, operands, [one, other]), name)
    nop = b"\xb4"
    # a jump behind memory, where nothing is spelled either
    orders.has((1, 2), Answer(3, b"", b"fault: F1 at 08370\n"), PLAY, coded(b"\x8c\x7f\xff" + QUIT))
    # no number of property 0 is a default's, whose data here are three bytes long
    zero = coded(nop + b"\x11\x02\x00\x11" + QUIT, bytes={0x27C: 0x40})
    orders.has((8, 9), ended(8), PLAY, zero)
    # a table at 376 in static memory, of a property 1 of three bytes, or of one byte
    for size, told, mistakes in ((0x41, 9, (9, 11)), (0x01, 11, (11,))):
        high = coded(nop + b"\xe3\x57\x02\x01\x05" + QUIT + b"\0" + bytes([0, size, 7, 7, 7, 0]), bytes={0x26E: 0x03, 0x26F: 0x78})
        orders.has(mistakes, ended(told), PLAY, high)
    high = coded(nop + b"\xe3\x5b\x02\x01\x00" + QUIT + b"\0" + bytes([0, 0x41, 7, 7, 7, 0]), bytes={0x26E: 0x03, 0x26F: 0x78})
    orders.has((4, 9), ended(4), PLAY, high)
    # one buffer that is too small and not to be written
    orders.has((11, 14), ended(14), PLAY, played("sread", [0x35F, 0x290], []))
    # returns from the first frame: of what isn't there, and behind a text that has no value
    orders.has((4, 15), ended(4), PLAY, coded(nop + b"\xab\x00"))
    orders.has((4, 15), ended(4), PLAY, coded(nop + b"\xb8"))
    orders.has((5, 15), ended(5), PLAY, coded(nop + b"\xab\x01"))
    orders.has((13, 15), ended(13), PLAY, coded(nop + b"\xb3\x84\x05", bytes=NESTED))
    orders.has((15,), ended(15), PLAY, coded(nop + b"\x9b\x05"))

    orders.none_has([(1, it) for it in range(3, 17)] + [(2, it) for it in range(3, 17)], "no instruction is spelled that could have another fault")
    having = {it: set() for it in range(3, 17)}
    for name, _, own in FAULTS:
        for it in own:
            having[it.number].add(name)
    having[3], having[15] = {"call"}, BRANCHES | set("ret rtrue rfalse ret_popped print_ret".split())
    having[13].add("print_ret")
    having[9].add("put_prop")
    having[11].add("put_prop")
    valued = [it for it in range(3, 17) if it not in (4, 5)]
    orders.none_has([pair for pair in itertools.combinations(valued, 2) if not having[pair[0]] & having[pair[1]]], "no instruction has both")
    orders.none_has([(6, 9), (6, 13)], "an object that there isn't has no property and no name")
    orders.none_has([(8, 11)], "a property that there isn't has no data")
    return orders


# ---- what keeps a save from being restored, which the errors say with `--tell`; play goes on as before

SOUND_SAVE = {
    "kind": b"IFZS", "more": b"", "release": RELEASE, "place": 0x326, "memory": RESTORES[:STATIC], "frames": bytes(8), "late": False, "behind": b"",
}


def save_of(parts):
    """The bytes of a save of these parts, of which those that aren't given are sound."""
    it = {**SOUND_SAVE, **parts}
    head = chunk(b"IFhd", word(it["release"]) + SERIAL + RESTORES[0x1C:0x1E] + (it["place"] + 1).to_bytes(3, "big"))
    memory, frames = chunk(b"UMem", it["memory"]), chunk(b"Stks", it["frames"])
    chunks = b"".join([memory, head, frames] if it["late"] else [head, memory, frames]) + it["behind"]
    return b"FORM" + (len(chunks) + 4).to_bytes(4, "big") + it["kind"] + chunks + it["more"]


TWICE, COMPRESSED = chunk(b"UMem", RESTORES[:STATIC]), chunk(b"CMem", b"")
OTHER_GLOBAL = changed(RESTORES[:STATIC], GLOBALS, 1)  # the certificate says that it is 0

WRONG_SAVES = {
    1: {"kind": b"IFXX"},
    2: {"more": b"\0"},  # a byte that the form's length doesn't count
    3: {"late": True},
    4: {"behind": TWICE},
    5: {"behind": COMPRESSED},
    6: {"release": RELEASE + 1},
    7: {"memory": RESTORES[:STATIC] + bytes(2)},
    8: {"frames": bytes(7) + b"\1"},  # a word that isn't there
    9: {"place": 0x324},  # a `restore`
    10: {"memory": OTHER_GLOBAL},
}
BOTH_WRONG = {(4, 5): {"behind": TWICE + COMPRESSED}, (7, 10): {"memory": OTHER_GLOBAL + bytes(2)}}


def restoring():
    orders = Orders("Q", 11)
    words = ["play", "--tell", "--save", "kept", "story", "certificate"]
    files = lambda parts: {"story": RESTORES, "certificate": RESTORES_LISTED, "kept": save_of(parts)}
    told = lambda number: Answer(0, b"0", f"save refused: Q{number}\n".encode())
    orders.has((), Answer(0, b"y0", b""), words, files({}))
    for number, parts in WRONG_SAVES.items():
        orders.has((number,), told(number), words, files(parts))
    for pair in itertools.combinations(WRONG_SAVES, 2):
        orders.has(pair, told(pair[0]), words, files(BOTH_WRONG.get(pair, {**WRONG_SAVES[pair[0]], **WRONG_SAVES[pair[1]]})))
    orders.none_has([(it, 11) for it in range(1, 11)], "want of memory stands outside the order; tests/refusals has it")
    return orders


def main():
    program = Program(sys.argv[1])
    count = Count("orders")
    for orders in (loading(), listing(), decoding(), spelling(), fitting(), judging(), faulting(), restoring()):
        orders.see(program, count)
    count.end()


if __name__ == "__main__":
    main()
