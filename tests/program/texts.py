"""Runs of the opcodes that print texts at addresses and show status lines, on both machines. What is printed is worked out by hand
after the standard, docs/MACHINE.md and docs/CERTIFICATE.md."""
from arrays import NONE, first, holding, filled, storeb
from plays import QUIT, SAY_YES, Plays, ended, fault, printed
from program import Answer
from properties import FIVE, LAST_OBJECT, THREE, bytes_at, files
from samples import NOP, letter, text, word

SHOW = b"\xbc"
PRINT_OBJ = b"\x9a"
FIRST = b"\x10"  # global 16


def at(opcode):
    """An instruction of an operand, which is a large constant or, given as a byte, a variable (Z 4.2, 4.4)."""
    return lambda operand: bytes([opcode | 0x20]) + operand if isinstance(operand, bytes) else bytes([opcode]) + word(operand % 65536)


print_addr, print_paddr = at(0x87), at(0x8D)


def letters(string):
    return text([letter(it) for it in string])


# ---- texts: the instruction, what is printed; then what is known of globals, bytes of the story that are others, and what is frozen
#
# Bytes of the story: objects have their entries at 25E and 267, with attributes first and the address of their table last.
# 26E: 02 79                             the address of the last table
# 270: 01 98 A5, 05 07, 23 12 34, 00     the name a, property 5, property 3, the end
# 279: 01 9C A5, 00                      the name b, the end
# 27D: 00 00 00 0A ..                    free up to the end of dynamic memory, 02 at 290, else 00
# 29A: 01 AD, 96 times                   abbreviations, each of which prints nothing
# 35A: 94 A5                              the empty text, to which each abbreviation leads
# 35C: 01 2C 07 00 02                    the dictionary: a comma separates, and there are two entries of seven bytes
# 361: 1B 25 94 A5 00 00 00              the word at
# 368: 46 94 C0 A5 00 00 00, 00          the word look

A_TEXT = {0x280: 0x98, 0x281: 0xA5}  # a
TWO_WORDS = bytes_at(0x280, b"\x18\xc6\x98\xa5")  # aaaa

TEXTS = [
    ("an empty text", print_addr(0x35A), b""),
    ("a word of the dictionary", print_addr(0x361), b"at"),
    ("another one", print_addr(0x368), b"look"),
    ("the end of one", print_addr(0x36A), b"k"),
    ("a text at an odd address", print_addr(0x362 + 1), b""),
    ("a text over two words of the dictionary", print_addr(0x366), b"   look"),
    ("what else stands there", print_addr(0x362), b"dgodc "),
    ("the last of the abbreviations' words", print_addr(0x358), b" hh"),
    ("the name of the first object", print_addr(0x271), b"a"),
    ("the name of the second object", print_addr(0x27A), b"b"),
    ("an address of a table and what follows", print_addr(0x26E), b" nt gsdc"),
    ("a text through frozen data", print_addr(0x275), b"csmh   gwdc ", NONE, NONE, [THREE]),
    ("a text from frozen data on", print_addr(0x274), b"lo  ", NONE, NONE, [FIVE, THREE]),
    ("a frozen text", print_addr(0x280), b"a", NONE, A_TEXT, [(0x280, 0x281)]),
    ("a frozen text of two words", print_addr(0x280), b"aaaa", NONE, TWO_WORDS, [(0x280, 0x283)]),
    ("the end of one", print_addr(0x282), b"a", NONE, TWO_WORDS, [(0x282, 0x283)]),
    ("a text of more that is frozen", print_addr(0x280), b"a", NONE, A_TEXT, [(0x27F, 0x290)]),
    ("a text from dynamic memory on", print_addr(0x299), b"  c", NONE, NONE, [(0x299, 0x299)]),
    ("a text at a packed address", print_paddr(0x368 // 2), b"look"),
    ("an empty text at a packed address", print_paddr(0x35A // 2), b""),
    ("a text over two words at a packed address", print_paddr(0x366 // 2), b"   look"),
    ("a name at a packed address", print_paddr(0x27A // 2), b"b"),
    ("a frozen text at a packed address", print_paddr(0x280 // 2), b"aaaa", NONE, TWO_WORDS, [(0x280, 0x283)]),
    # any of some
    ("any of three addresses", print_addr(FIRST), b"look", first(0x368, 0x368, 0x36A)),
    ("the last of three addresses", print_addr(FIRST), b"k", first(0x36A, 0x368, 0x36A)),
    ("the middle one of three, an escape that isn't finished", print_addr(FIRST), b"", first(0x369, 0x368, 0x36A)),
    ("any packed address of static memory from its base on", print_paddr(FIRST), b"look", first(0x1B4, 0x14D, 0x1B4)),
    ("any of dynamic memory too, frozen", print_paddr(FIRST), b"k", first(0x1B5, 0x14C, 0x1B5), NONE, [(0x298, 0x299)]),
    ("any address from the last of dynamic memory on, frozen", print_addr(FIRST), b"k", first(0x36A, 0x299, 0x36A), NONE, [(0x299, 0x299)]),
    # characters and abbreviations
    ("characters of each kind", print_addr(0x280), b"a\n@Z", NONE, bytes_at(0x280, text([6, 5, 7, 5, 6, 2, 0, 4, 31])), [(0x280, 0x285)]),
    ("an abbreviation", print_addr(0x280), b"aab", NONE, {**bytes_at(0x280, text([6, 1, 3, 7])), **bytes_at(0x35A, b"\x98\xa5")}, [(0x280, 0x283)]),
]

# ---- what no certificate makes well: the instruction, the rule, what the checked machine does

I11, F13 = "I11 at 00370", fault("F13 at 00370")

REFUSED = [
    ("a text that isn't frozen", print_addr(0x280), I11, printed(b"a"), NONE, A_TEXT),
    ("a text whose second byte isn't", print_addr(0x280), I11, printed(b"a"), NONE, A_TEXT, [(0x280, 0x280)]),
    ("a text whose first byte isn't", print_addr(0x280), I11, printed(b"a"), NONE, A_TEXT, [(0x281, 0x281)]),
    ("a text whose second word isn't", print_addr(0x280), I11, printed(b"aaaa"), NONE, TWO_WORDS, [(0x280, 0x281)]),
    ("a text whose last byte isn't", print_addr(0x280), I11, printed(b"aaaa"), NONE, TWO_WORDS, [(0x280, 0x282)]),
    ("a text whose first word isn't", print_addr(0x280), I11, printed(b"aaaa"), NONE, TWO_WORDS, [(0x282, 0x283)]),
    ("a text that isn't frozen, at a packed address", print_paddr(0x140), I11, printed(b"a"), NONE, A_TEXT),
    ("a text through data", print_addr(0x275), I11, printed(b"csmh   gwdc ")),
    ("a text from data on", print_addr(0x274), I11, printed(b"lo  "), NONE, NONE, [THREE]),
    ("a text from dynamic memory on", print_addr(0x299), I11, printed(b"  c")),
    ("a text behind memory", print_addr(0x8000), I11, F13),
    ("the last address", print_addr(0xFFFF), I11, F13),
    ("a packed address behind memory", print_paddr(0x4000), I11, F13),
    ("the last packed address", print_paddr(0xFFFF), I11, F13),
    ("an address that may be one less", print_addr(FIRST), I11, printed(b"k"), first(0x36A, 0x299, 0x36A)),
    ("an address that may be one less, by what is frozen", print_addr(FIRST), I11, printed(b"k"), first(0x36A, 0x298, 0x36A), NONE, [(0x299, 0x299)]),
    ("a packed address that may be one less", print_paddr(FIRST), I11, printed(b"look"), first(0x1B4, 0x14C, 0x1B4)),
    ("an address that may be negative", print_addr(FIRST), I11, printed(b"look"), first(0x368, -1, 0x368)),
    ("an address that may be any", print_addr(FIRST), I11, printed(b"look"), first(0x368, -32768, 32767)),
    ("a packed address that may be any", print_paddr(FIRST), I11, printed(b"look"), first(0x1B4, -32768, 32767)),
    ("one that may be 3", SHOW, "I18 at 00370", printed(b""), first(2, 0, 3)),
    ("one that may be -1", SHOW, "I18 at 00370", printed(b""), first(2, -1, 2)),
    ("one that may be any", SHOW, "I18 at 00370", printed(b""), first(0, -32768, 32767)),
    ("the status line of 3", SHOW, "I18 at 00370", fault("F6 at 00370"), first(3, 0, 3)),
    ("the status line of -1", SHOW, "I18 at 00370", fault("F6 at 00370"), first(-1, -1, 2)),
    ("a text on an empty stack", print_addr(b"\0"), "I2 at 00370", fault("F4 at 00370")),
    ("a text at an absent local", print_paddr(b"\1"), "I3 at 00370", fault("F5 at 00370")),
]

# ---- high memory, where only packed addresses reach

LONGEST = filled(0x1FFFE)
HIGH_TEXTS = [
    ("the first text that no byte address reaches", print_paddr(0x8000), b"a", NONE, bytes_at(0x10000, letters("a"))),
    ("a text over the last byte address", print_addr(0xFFFF), b"aaaa", NONE, bytes_at(0xFFFF, letters("aaaa"))),
    ("the same at a packed address", print_paddr(0x7FFF), b"aaaa", NONE, bytes_at(0xFFFE, letters("aaaa"))),
    ("the last text", print_paddr(0xFFFE), b"a", NONE, bytes_at(0x1FFFC, letters("a"))),
    ("any of all behind static memory's base", print_paddr(FIRST), b"a", first(-2, -32768, -2), bytes_at(0x1FFFC, letters("a"))),
]
HIGH_REFUSED = [
    ("the packed address of what lies behind", print_paddr(0xFFFF), I11, F13, NONE, bytes_at(0x1FFFC, letters("a"))),
    ("a text with no end", print_paddr(0xFFFE), I11, F13),
    ("one that may be one more", print_paddr(FIRST), I11, printed(b"a"), first(-2, -32768, -1), bytes_at(0x1FFFC, letters("a"))),
    ("any, where the end of the last is gone", print_paddr(FIRST), I11, F13, first(-2, -32768, -2)),
]

# ---- names at the last byte addresses, which no story that is accepted has: where the story ends, where object 2 has its table, what
# stands there, and what is printed, if it can be decoded

HIGH_NAMES = [
    ("a name that no byte address reaches", LONGEST, 0xFFFF, b"\x02" + letters("aaaa"), b"aaaa"),
    ("a name over the last byte address", LONGEST, 0xFFFD, b"\x02" + letters("aaaa"), b"aaaa"),
    ("an empty name at the last byte address", LONGEST, 0xFFFF, b"\0", b""),
    ("an empty name that ends memory", filled(0x10000), 0xFFFF, b"\0", b""),
    ("a name that memory ends before", filled(0x10000), 0xFFFF, b"\x01", None),
    ("a name of which memory has one word", filled(0x10002), 0xFFFF, b"\x01" + letters("a"), b"a"),
    ("a name with no end, which no byte address reaches", LONGEST, 0xFFFF, b"\x01", None),
]

# ---- an abbreviation in an abbreviation, which no story that is accepted has

NESTED = {**bytes_at(0x35A, b"\x84\x05"), **bytes_at(0x280, b"\x84\x05")}

# ---- a status line that is shown: what globals are and may be, bytes of the story that are others, what is printed with it

MINUS = {16: (0, 0, 2), 17: (-5, -5, 0), 18: (32767, 0, 32767)}
CLOCK = {16: (2, 0, 2), 17: (9, 0, 24), 18: (5, 0, 59)}
TIME = {1: 2}

LINES = [
    ("a status line of nothing", NONE, NONE, b"[ | Score: 0 | Moves: 0]\n"),
    ("that of the first object", first(1, 0, 2), NONE, b"[a | Score: 0 | Moves: 0]\n"),
    ("that of the second object", CLOCK, NONE, b"[b | Score: 9 | Moves: 5]\n"),
    ("the time", CLOCK, TIME, b"[b | Time: 9:05]\n"),
    ("numbers below 0 and the greatest", MINUS, NONE, b"[ | Score: -5 | Moves: 32767]\n"),
    ("a minute below 0", {**CLOCK, 18: (-5, -5, 5)}, TIME, b"[b | Time: 9:-5]\n"),
    ("the time of a minute of two digits", {**CLOCK, 18: (59, 0, 59)}, TIME, b"[b | Time: 9:59]\n"),
    ("a name with another letter", first(1, 0, 2), {0x271: 0x9C}, b"[b | Score: 0 | Moves: 0]\n"),
    ("an empty name", first(2, 0, 2), {**bytes_at(LAST_OBJECT, word(0x27D))}, b"[ | Score: 0 | Moves: 0]\n"),
]

LONG_NAME = {**bytes_at(LAST_OBJECT, word(0x27D)), **bytes_at(0x27D, bytes([6]) + letters("a room with a view"))}

LISTED = [print_addr(0x368), print_paddr(0x1B4), SHOW, QUIT]
LISTING = b"00370 0 print_addr\n00373 0 print_paddr\n00376 0 show_status\n00377 0 quit\n"


class Texts(Plays):
    """Plays texts at addresses and status lines on both machines, and counts."""

    def checked(self, name, given, rule, played):
        """Refused, and played all the same on the checked machine."""
        self.refuses(name, given, rule)
        self.count.is_answer(f"{name}, checked", self.play(given, []), played)

    def prints(self, making, name, instruction, printed_text, known=NONE, others=NONE, ranges=()):
        self.answers(name, holding(making, [instruction, QUIT], known, others, ranges), printed(printed_text))

    def refused(self, making, name, instruction, rule, played, known=NONE, others=NONE, ranges=()):
        self.checked(f"no text: {name}", holding(making, [instruction, QUIT], known, others, ranges), rule, played)

    def shown(self, name, known, others, line):
        """The line stands between what is printed before and behind it, where status lines are asked for."""
        given = holding(files, [SAY_YES, SHOW, SAY_YES, QUIT], known, others, [])
        self.answers(f"{name}, which isn't asked for", given, printed(b"yy"))
        for machine, words in [("checked", []), ("by its certificate", ["certificate"])]:
            answer = self.program.run(["play", "--status", "story"] + words, given)
            self.count.is_answer(f"{name}, {machine}", answer, printed(b"y" + line + b"y"))
        name_shown, _, numbers = line[1:-2].partition(b" | ")
        answer = self.program.run(["play", "--framed-status", "story"], given)
        self.count.is_answer(f"{name}, in a frame", answer, printed(b"y\x02" + name_shown + b"\x1f" + numbers + b"\x03y"))

    def named(self, name, making, table, piece, printed_text):
        """Printed by print_obj, and shown in a status line."""
        others = {**bytes_at(LAST_OBJECT, word(table)), **bytes_at(table, piece)}
        given = holding(making, [PRINT_OBJ + b"\x02", QUIT], NONE, others, [])
        self.checked(name, given, "S5", F13 if printed_text is None else printed(printed_text))
        given = holding(making, [SHOW, QUIT], first(2, 0, 2), others, [])
        line = F13 if printed_text is None else printed(b"[" + printed_text + b" | Score: 0 | Moves: 0]\n")
        self.count.is_answer(f"{name}, shown", self.program.run(["play", "--status", "story"], given), line)

    def alone(self):
        """What no table has."""
        nested = files([print_addr(0x280), QUIT], others=NESTED, ranges=[(0x280, 0x281)])
        self.checked("an abbreviation in an abbreviation", nested, "S7", F13)
        self.checked("a text, further on", files([SAY_YES, NOP, print_addr(0x280), QUIT], others=A_TEXT), "I11 at 00374", printed(b"ya"))
        behind = files([SAY_YES, NOP, print_addr(0x8000), QUIT])
        self.checked("a text behind memory, further on", behind, "I11 at 00374", Answer(3, b"y", b"fault: F13 at 00374\n"))
        rewritten = [storeb(0x280, 0, 0x9C), print_addr(0x280), QUIT]
        self.checked("a text that is written", files(rewritten, others=A_TEXT), "I11 at 00378", printed(b"b"))
        self.checked("the same, frozen", files(rewritten, others=A_TEXT, ranges=[(0x280, 0x281)]), "I9 at 00370", printed(b"b"))
        self.answers("a text again and again", files([print_paddr(0x1B4), b"\x8c\xff\xfc"]), again(b"look", 131072 // 2))
        self.count.is_answer("texts, listed", self.program.run(["list", "story"], files(LISTED)), printed(LISTING))


def again(piece, times):
    return Answer(0, piece * times, ended("budget").errors)


def see_texts(program, count):
    texts = Texts(program, count)
    for row in TEXTS:
        texts.prints(files, *row)
    for row in REFUSED:
        texts.refused(files, *row)
    for row in HIGH_TEXTS:
        texts.prints(LONGEST, *row)
    for row in HIGH_REFUSED:
        texts.refused(LONGEST, *row)
    for row in LINES:
        texts.shown(*row)
    for row in HIGH_NAMES:
        texts.named(*row)
    texts.shown("a name of more than 16 letters", first(2, 0, 2), LONG_NAME, b"[a room with a view | Score: 0 | Moves: 0]\n")
    texts.alone()
