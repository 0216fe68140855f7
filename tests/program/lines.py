"""Runs of the opcodes that take lines of the player and draw random numbers, on both machines. What is printed, and the values that
certificates state, are worked out by hand after the standard, docs/MACHINE.md and docs/CERTIFICATE.md."""
import os
import subprocess
import tempfile

from arrays import NONE, first, holding, loadb, operands
from plays import PRINT_TOP, QUIT, SAY_YES, Plays, ended, fault, placed, printed, slots, tighter
from program import Answer
from properties import BYTE, bytes_at, files
from samples import certificate, interval, word

DATA = os.path.join(os.path.dirname(os.path.abspath(__file__)), "../../crates/zpc/data")
FIRST, FOURTH = b"\x10", b"\x13"  # globals 16 and 19
TEXT, PARSE = 0x280, 0x290
SIZES = [(TEXT, TEXT), (PARSE, PARSE)]  # what a certificate freezes, so that the sizes of both buffers are known
PRINT_SPACE = b"\xe5\x7f\x20"
STATUS = b"[ | Score: 0 | Moves: 0]\n"


def sread(text_buffer=TEXT, parse=PARSE):
    return b"\xe4" + operands(text_buffer, parse)


def random(value, to=0):
    return b"\xe7" + operands(value) + bytes([to])


def telling(begin, count):
    """Instructions that print so many bytes of memory from a place on, as numbers."""
    for place in range(begin, begin + count):
        yield from [loadb(place, 0), (PRINT_TOP, interval(*BYTE)), PRINT_SPACE]


def numbers(*given):
    return b"".join(b"%d " % it for it in given)


def words_of(seed):
    """The low 16 bits of the numbers of xoshiro128++ (Blackman and Vigna), whose state is filled by splitmix64 from a seed."""
    state, mixed = [], seed
    for _ in range(2):
        mixed = (mixed + 0x9E3779B97F4A7C15) % 2**64
        z = (mixed ^ mixed >> 30) * 0xBF58476D1CE4E5B9 % 2**64
        z = (z ^ z >> 27) * 0x94D049BB133111EB % 2**64
        z ^= z >> 31
        state += [z % 2**32, z >> 32]
    turned = lambda x, k: (x << k | x >> 32 - k) % 2**32
    while True:
        yield (turned((state[0] + state[3]) % 2**32, 7) + state[0]) % 65536
        shifted = state[1] << 9 & 0xFFFFFFFF
        state[2] ^= state[0]
        state[3] ^= state[1]
        state[1] ^= state[2]
        state[0] ^= state[3]
        state[2] ^= shifted
        state[3] = turned(state[3], 11)


def drawn(seed, ranges):
    """What a play of such a seed prints that draws in these ranges."""
    return b"".join(b"%d" % (1 + it % most) for it, most in zip(words_of(seed), ranges))


# ---- lines: what is typed, what the text buffer takes and the parse buffer, what both hold then from byte 1 on
#
# The dictionary has `at`, encoded as 1B 25 94 A5, at 361, and `look` at 368; a comma separates words.

LINES = [
    ("two words and a separator", b"look,at\n", 10, 2, [108, 111, 111, 107, 44, 97, 116, 0], [2, 3, 104, 4, 1, 0, 0, 1, 5]),
    ("a word in capitals", b"AT\n", 10, 2, [97, 116, 0, 0], [1, 3, 97, 2, 1, 0, 0, 0, 0]),
    ("a line that is too long for its buffer", b"ab\n", 2, 2, [97, 0, 0], [1, 0, 0, 1, 1, 0]),
    ("a line of 300 bytes", b"a" * 300 + b"\n", 10, 2, [97] * 9 + [0, 0], [1, 0, 0, 9, 1, 0]),
    ("a line that just fits", b"at at at,\n", 10, 2, [97, 116, 32, 97, 116, 32, 97, 116, 44, 0, 0], [2, 3, 97, 2, 1, 3, 97, 2, 4]),
    ("a line with a carriage return", b"at\r\n", 10, 2, [97, 116, 0], [1, 3, 97, 2, 1]),
    ("two of them", b"at\r\r\n", 10, 2, [97, 116, 63, 0], [1, 0, 0, 3, 1]),
    ("one within a line", b"a\rt\n", 10, 2, [97, 63, 116, 0], [1, 0, 0, 3, 1]),
    ("a last line without an end", b"look", 10, 2, [108, 111, 111, 107, 0], [1, 3, 104, 4, 1]),
    ("one that ends with a carriage return", b"at\r", 10, 2, [97, 116, 63, 0], [1, 0, 0, 3, 1]),
    ("an empty line", b"\nat\n", 10, 2, [0, 0, 0], [0, 0, 0]),
    ("spaces alone", b"   \n", 10, 2, [32, 32, 32, 0], [0, 0, 0]),
    ("what is no printable ASCII", b"\xe9\x7f\t\x00~\n", 10, 2, [63, 63, 63, 63, 126, 0], [1, 0, 0, 5, 1]),
    ("one word more than there is room for", b"at at\n", 10, 1, [97, 116, 32, 97, 116, 0], [1, 3, 97, 2, 1, 0, 0, 0, 0]),
    ("a word cut by the end of its buffer", b"at look\n", 6, 2, [97, 116, 32, 108, 111, 0, 0], [2, 3, 97, 2, 1, 0, 0, 2, 4]),
    ("words between separators and spaces", b" at,look \n", 10, 2, [32, 97, 116, 44, 108, 111, 111, 107, 32, 0], [2, 3, 97, 2, 2, 0, 0, 1, 4]),
    ("a word of seven letters", b"abcdefg\n", 10, 2, [97, 98, 99, 100, 101, 102, 103, 0], [1, 0, 0, 7, 1]),
]

# ---- what no certificate makes well: the instructions, what the checked machine does on "at", and the rule, with what is known of
# globals, bytes of the story that are others, and what is frozen

I14, I18 = "I14 at 00370", "I18 at 00370"
F6, F11, F12, F14 = (fault(f"F{number} at 00370") for number in (6, 11, 12, 14))
NOTHING = printed(b"")

REFUSED = [
    ("sizes that aren't frozen", sread(), I14, NOTHING),
    ("a text buffer whose size isn't", sread(), I14, NOTHING, NONE, NONE, [(PARSE, PARSE)]),
    ("a parse buffer whose limit isn't", sread(), I14, NOTHING, NONE, NONE, [(TEXT, TEXT)]),
    ("a text buffer with no room for a letter", sread(), I14, F14, NONE, {TEXT: 1}, SIZES),
    ("a text buffer of nothing", sread(), I14, F14, NONE, {TEXT: 0}, SIZES),
    ("a parse buffer with no room for a word", sread(), I14, F14, NONE, {PARSE: 0}, SIZES),
    ("a text buffer that may be one of two", sread(FOURTH), I14, NOTHING, {19: (TEXT, TEXT, TEXT + 1)}, NONE, SIZES),
    ("a parse buffer that may be one of two", sread(TEXT, FOURTH), I14, NOTHING, {19: (PARSE, PARSE - 1, PARSE)}, NONE, SIZES),
    ("a parse buffer that goes over the static base", sread(), I14, F11, NONE, {PARSE: 3}, SIZES),
    ("a text buffer that does", sread(), I14, F11, NONE, {TEXT: 26}, SIZES),
    ("a text buffer over a frozen byte", sread(), I14, NOTHING, NONE, {TEXT: 16}, SIZES),
    ("a text buffer whose last byte is frozen", sread(), I14, NOTHING, NONE, NONE, [(TEXT, TEXT), (0x28A, 0x28A), (PARSE, PARSE)]),
    ("a parse buffer whose last byte is frozen", sread(), I14, NOTHING, NONE, NONE, [(TEXT, TEXT), (PARSE, PARSE), (0x299, 0x299)]),
    ("a parse buffer whose count is frozen", sread(), I14, NOTHING, NONE, NONE, [(TEXT, TEXT), (PARSE, PARSE + 1)]),
    ("a text buffer in static memory", sread(0x361), I14, F11, NONE, NONE, SIZES),
    ("a parse buffer in static memory", sread(TEXT, 0x361), I14, F11, NONE, NONE, SIZES),
    ("a text buffer among attributes", sread(0x262), I14, NOTHING, NONE, {0x262: 2}, SIZES),
    ("a text buffer behind memory", sread(0x8000), I14, F12, NONE, NONE, SIZES),
    ("a parse buffer behind memory", sread(TEXT, 0xFFFF), I14, F12, NONE, NONE, SIZES),
    ("a text buffer in the header", sread(2), I14, F14, NONE, NONE, SIZES),
    ("one with a size there", sread(0x12), I14, F11, NONE, NONE, SIZES),
    ("the status line of 3", sread(), I18, F6, first(3, 0, 3), NONE, SIZES),
    ("that of what may be 3", sread(), I18, NOTHING, first(2, 0, 3), NONE, SIZES),
    ("the status line of 3 and no frozen size", sread(), I14, F6, first(3, 0, 3), {TEXT: 1}),
    ("an empty stack", sread(b"\0"), "I2 at 00370", fault("F4 at 00370"), NONE, NONE, SIZES),
    ("an absent local", sread(TEXT, b"\1"), "I3 at 00370", fault("F5 at 00370"), NONE, NONE, SIZES),
]

# ---- random numbers: what is known of global 16, which the range is, from where to where the number may be, what seed 1 draws

RANGES = [
    ("a range of 6", 6, (6, 6, 6), (1, 6)),
    ("a range of 1", 1, (1, 1, 1), (1, 1)),
    ("the greatest range", 32767, (32767, 32767, 32767), (1, 32767)),
    ("a range that is above 0", 6, (6, 1, 9), (1, 9)),
    ("a range that may be 0", 6, (6, 0, 9), (0, 9)),
    ("a range that may be below 0", 6, (6, -3, 6), (0, 6)),
    ("any range", 6, (6, -32768, 32767), (0, 32767)),
    ("a range of 0", 0, (0, 0, 0), (0, 0)),
    ("a range of 0 or 1", 0, (0, 0, 1), (0, 1)),
    ("a range that is 0 or below", -3, (-3, -3, 0), (0, 0)),
    ("a range below 0", -32768, (-32768, -32768, -1), (0, 0)),
]


def drawing(*ranges):
    """Instructions that draw in these ranges and print what comes."""
    for it in ranges:
        yield from [random(it), (PRINT_TOP, interval(*((1, it) if it > 0 else (0, 0))))]


# the seed 3 counts 1, 2, 3, 1, and so on; each is taken modulo the range, and 1 added
COUNTS = [
    ("a seed of 3", [-3, 3, 3, 3, 3], b"02312"),
    ("a seed of 1", [-1, 6, 6], b"022"),
    ("a seed anew", [-3, 3, 3, -3, 3], b"02302"),
    ("the least seed", [-32768, 100, 100], b"023"),
    ("words again", [-3, 3, 0], b"020"),
]

LISTED = [sread(), random(6), (PRINT_TOP, slots(0)), QUIT]
LISTING = b"00370 0 sread\n00376 0 random\n0037b 0 print_num\n0037e 0 quit\n"


class Lines(Plays):
    """Plays stories that ask and draw on both machines, and counts."""

    def plays(self, name, given, typed, wanted, words=()):
        for machine, by in [("checked", []), ("by its certificate", ["certificate"])]:
            answer = self.program.run(["play", *words, "--budget", "131072", "story", *by], given, typed=typed)
            self.count.is_answer(f"{name}, {machine}", answer, wanted)

    def line(self, name, typed, size, limit, text, parse):
        code = [sread(), *telling(TEXT + 1, len(text)), *telling(PARSE + 1, len(parse)), QUIT]
        given = files(code, others={TEXT: size, PARSE: limit}, ranges=SIZES)
        self.plays(name, given, typed, printed(numbers(*text, *parse)))
        self.plays(f"{name}, with its status line", given, typed, printed(STATUS + numbers(*text, *parse)), ["--status"])

    def refused(self, name, instruction, rule, played, known=NONE, others=NONE, ranges=()):
        given = holding(files, [instruction, QUIT], known, others, ranges)
        self.refuses(f"no line: {name}", given, rule)
        answer = self.program.run(["play", "story"], given, typed=b"at\n")
        self.count.is_answer(f"no line: {name}, checked", answer, played)

    def ranged(self, name, value, known, slot):
        of = lambda stated: holding(files, [random(FIRST), (PRINT_TOP, interval(*stated)), QUIT], {16: known}, NONE, [])
        self.answers(f"random: {name}", of(slot), printed(drawn(1, [value]) if value > 0 else b"0"))
        for tight in tighter(*slot):
            self.refuses(f"random: {name}, in {tight}", of(tight), "I4 at 00370")

    def draws(self):
        for name, ranges, wanted in COUNTS:
            self.plays(f"random: {name}", files([*drawing(*ranges), QUIT]), b"", printed(wanted))
        ranges = [6, 100, 32767, 2, 1, 6, 6, 6]
        for seed in (0, 1, 2, 12345, 2**64 - 1):
            self.plays(f"seed {seed}", files([*drawing(*ranges), QUIT]), b"", printed(drawn(seed, ranges)), ["--seed", str(seed)])
        self.plays("words before and behind a count", files([*drawing(6, -3, 3, 0, 6), QUIT]), b"", printed(drawn(1, [6])[:1] + b"020" + drawn(1, [1, 6])[1:]))

    def several(self):
        """Lines one after another, and where they end."""
        asks = [SAY_YES, sread(), *telling(TEXT + 1, 2)]
        given = files([*asks, *asks, QUIT], ranges=SIZES)
        self.plays("two lines", given, b"at\nlook\n", printed(b"y97 116 y108 111 "))
        self.plays("a line more than is read", given, b"at\n\nlook\n", printed(b"y97 116 y0 116 "))
        self.plays("no second line", given, b"at\n", Answer(0, b"y97 116 y", b"end: no input\n"))
        self.plays("no second line, its first without an end", given, b"at", Answer(0, b"y97 116 y", b"end: no input\n"))
        self.plays("no line", given, b"", Answer(0, b"y", b"end: no input\n"))
        status = printed(b"y" + STATUS + b"97 116 y" + STATUS + b"108 111 ")
        self.plays("two status lines", given, b"at\nlook\n", status, ["--status"])
        self.plays("a status line before no line", given, b"", Answer(0, b"y" + STATUS, b"end: no input\n"), ["--status"])
        self.plays("long lines", given, b"a" * 5000 + b"\n" + b"look" * 3000, printed(b"y97 97 y108 111 "))

    def budgets(self):
        """Both steps of a line count, and a budget goes on behind it."""
        given = files([SAY_YES, sread(), SAY_YES, sread(), SAY_YES, QUIT], ranges=SIZES)
        for budget, text, end in [(0, b"", b"budget"), (1, b"y", b"budget"), (2, b"y", b"no input"), (4, b"yy", b"budget"), (5, b"yy", b"no input")]:
            for machine, by in [("checked", []), ("by its certificate", ["certificate"])]:
                words = ["play", "--budget", str(budget), "story", *by]
                typed = b"" if end == b"no input" and budget == 2 else b"at\n"
                answer = self.program.run(words, given, typed=typed)
                self.count.is_answer(f"{budget} steps, {machine}", answer, Answer(0, text, b"end: " + end + b"\n"))
        for machine, by in [("checked", []), ("by its certificate", ["certificate"])]:
            answer = self.program.run(["play", "--budget", "7", "story", *by], given, typed=b"at\nat\n")
            self.count.is_answer(f"7 steps, {machine}", answer, printed(b"yyy"))

    def prompts(self):
        """What is printed before a line is seen before the line is typed."""
        given = files([SAY_YES, sread(), SAY_YES, QUIT], ranges=SIZES)
        for machine, by in [("checked", []), ("by its certificate", ["certificate"])]:
            with tempfile.TemporaryDirectory(prefix="zpc-") as room:
                for name, contents in given.items():
                    with open(os.path.join(room, name), "wb") as file:
                        file.write(contents)
                with subprocess.Popen([self.program.path, "play", "story", *by], cwd=room, stdin=subprocess.PIPE, stdout=subprocess.PIPE) as run:
                    prompt = os.read(run.stdout.fileno(), 1)
                    rest, _ = run.communicate(b"at\n", timeout=60)
                    self.count.is_answer(f"a prompt, {machine}", (prompt, rest, run.returncode), (b"y", b"y", 0))

    def game(self):
        """The game of crates/zpc/data, whose number is 1 more than what is left of the first word by 9: 1 with seed 1."""
        given = {}
        for name, path in [("story", "guess.z3"), ("certificate", "guess.cert")]:
            with open(os.path.join(DATA, path), "rb") as file:
                given[name] = file.read()
        asks, found = b"Your guess? ", b"You found it. Guesses: "
        begins, wrong = b"I am thinking of a number from 1 to 9.\n" + asks, b"A number from 1 to 9, or quit.\n"
        status = lambda moves: b"[parlour | Score: 0 | Moves: %d]\n" % moves
        accepted = self.program.run(["check", "story", "certificate"], given)
        self.count.is_answer("the game is accepted", accepted, printed(b"accepted\n"))
        self.plays("the game, won", given, b"5\nup\n1\n", printed(begins + b"It is less.\n" + asks + wrong + asks + found + b"3\n"))
        self.plays("the game, given up", given, b"Quit!\nquit.\n", printed(begins + wrong + asks + b"It was 1.\n"))
        self.plays("the game, left", given, b"5\n", Answer(0, begins + b"It is less.\n" + asks, b"end: no input\n"))
        with_status = begins + status(0) + b"It is less.\n" + asks + status(1) + found + b"2\n"
        self.plays("the game, with status lines", given, b"2\n1\n", printed(with_status), ["--status"])

    def alone(self):
        """What no table has."""
        at_stack = [(b"\xe8" + operands(PARSE), slots()), (b"\xe8" + operands(TEXT), slots(PARSE)), (sread(b"\0", b"\0"), slots(PARSE, TEXT))]
        given = files([*at_stack, *telling(TEXT + 1, 3), QUIT], ranges=SIZES)
        self.plays("buffers that the stack names", given, b"at\n", printed(b"97 116 0 "))
        self.plays("the name of the first object", holding(files, [sread(), QUIT], first(1, 0, 2), NONE, SIZES), b"at\n", printed(b"[a | Score: 0 | Moves: 0]\n"), ["--status"])
        self.plays("a text buffer among free bytes", files([sread(0x27D), *telling(0x27E, 2), QUIT], others={0x27D: 2}, ranges=[(0x27D, 0x27D), (PARSE, PARSE)]), b"look\n", printed(b"108 0 "))
        self.count.is_answer("lines, listed", self.program.run(["list", "story"], files(LISTED)), printed(LISTING))


def see_lines(program, count):
    lines = Lines(program, count)
    for row in LINES:
        lines.line(*row)
    for row in REFUSED:
        lines.refused(*row)
    for row in RANGES:
        lines.ranged(*row)
    lines.draws()
    lines.several()
    lines.budgets()
    lines.prompts()
    lines.game()
    lines.alone()
