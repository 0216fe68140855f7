"""Certificates of version 2, in which a set of values is an interval or a list: made from their bytes, read by a reader that was written
after docs/CERTIFICATE.md alone, and run. What is printed and told is worked out by hand."""
import random
import struct

from lines import words_of
from program import Answer, side_by_side
from samples import CODE, QUIT, RELEASE, SERIAL, changed, story, word

CHECK, PLAY, PLAY_LISTED, LIST_BY = ["check", "story", "certificate"], ["play", "story"], ["play", "story", "certificate"], ["list", "story", "certificate"]
WIDE = (-32768, 32767)


def run_of(lower, upper):
    """An interval."""
    return b"\0" + struct.pack(">hh", lower, upper)


def list_of(*numbers):
    """A list of numbers, as they are given."""
    return bytes([1, len(numbers)]) + b"".join(struct.pack(">h", it) for it in numbers)


def certificate(made, instructions, values=run_of(0, 0), ranges=(), routines=(), own=None, heading=b"ZPCC\x02"):
    """A certificate of a story that says of each global that its value is among these, or among its own, which are given for the number of
    its variable. A frozen range is its first and its last place, a routine its address, its count of locals and what it may give, an
    instruction its address, the number of its routine, the sets of its locals, and those of its stack, the bottom one first."""
    own = own or {}
    parts = [heading, struct.pack(">H6s2sI", RELEASE, SERIAL, made[0x1C:0x1E], len(made)), word(len(ranges))]
    parts += [struct.pack(">HH", *it) for it in ranges]
    parts += [own.get(number, values) for number in range(16, 256)]
    parts += [word(len(routines)), *(struct.pack(">IB", at, count) + result for at, count, result in routines)]
    parts.append(struct.pack(">I", len(instructions)))
    for address, routine, local_sets, slots in instructions:
        parts.append(struct.pack(">IHB", address, routine, len(slots)) + b"".join([*local_sets, *slots]))
    return b"".join(parts)


# ---- a reader

class Refused(Exception):
    """Why a file is no certificate: the number behind its K."""


class Reader:
    """Reads a file number by number. At a number a cut comes first, then what is wrong with it."""

    def __init__(self, file):
        self.file, self.at, self.marks = file, 0, 0

    def take(self, count):
        piece = self.file[self.at : self.at + count]
        self.at += count
        if len(piece) < count:
            raise Refused(3)
        return piece

    def number(self, count, least=0, most=None):
        found = int.from_bytes(self.take(count), "big")
        if found < least:
            raise Refused(5)
        if most is not None and found > most:
            raise Refused(7)
        return found

    def signed(self):
        return struct.unpack(">h", self.take(2))[0]

    def interval(self):
        lower, upper = self.signed(), self.signed()
        if lower > upper:
            raise Refused(6)
        return lower, upper

    def set(self):
        if self.version == 1:
            return self.interval()
        kind = self.number(1)
        if kind == 0:
            return self.interval()
        if kind > 1:
            raise Refused(9)
        count = self.number(1)
        if not 2 <= count <= 64:
            raise Refused(9)
        numbers = []
        for _ in range(count):
            numbers.append(self.signed())
            if len(numbers) > 1 and numbers[-2] >= numbers[-1]:
                raise Refused(5)
        if numbers[-1] - numbers[0] == count - 1:
            raise Refused(9)
        return numbers

    def rising(self, count, limit):
        """Addresses that rise, so many, as they are read."""
        least = 0
        for _ in range(self.number(*count)):
            address = self.number(4, least, limit)
            least = address + 1
            yield address

    def ranges(self):
        least = 0
        for _ in range(self.number(2)):
            first = self.number(2, least)
            least = self.number(2, first) + 2

    def height(self, _):
        """How many slots the stack has before an instruction. From version 4 on bit 7 is no part of it: it marks the instruction."""
        found = self.number(1)
        if self.version > 3 and found & 0x80:
            self.marks += 1
            found -= 0x80
        if found > 64:
            raise Refused(7)
        return found

    def facts(self):
        floor = least = 0
        for _ in range(self.number(4, 0, 1048576)):
            address = self.number(4, floor, 131071)
            least = self.number(1, least if address == floor else 0, 239) + 1
            floor = address
            self.set()

    def read(self):
        if self.take(4) != b"ZPCC":
            raise Refused(1)
        self.version = self.number(1)
        if self.version not in (1, 2, 3, 4, 5):
            raise Refused(2)
        for count in (2, 6, 2, 4):
            self.take(count)
        if self.version > 2:
            self.number(2, 0, 4096)
        self.ranges()
        for _ in range(240):
            self.set()
        counts = [0]
        for _ in self.rising((2,), 131071):
            counts.append(self.number(1, 0, 15))
            self.set()
        for address in self.rising((4, 0, 131072), 131071):
            routine = self.number(2, 0, len(counts) - 1)
            height = self.height(address)
            for _ in range(counts[routine] + height):
                self.set()
        if self.version > 4:
            self.facts()
        if self.at < len(self.file):
            raise Refused(4)


def refusal(file):
    """The number of the refusal of a file, or None where it is read."""
    try:
        Reader(file).read()
    except Refused as it:
        return it.args[0]
    return None


def marks_of(file):
    """How many instructions a certificate marks."""
    reader = Reader(file)
    reader.read()
    return reader.marks


# ---- a table of routines: it draws 1 or 2, takes the routine of that number from a table at 33e, calls it and prints what it gives

CALLED = bytes.fromhex("E77F0200 CF2F033C0000 E0BF0000 E6BF00 BA 009B05 00 009B07 00 019B 019D")
TABLE = story(CALLED)
FIVE, SEVEN = (0x336, 0, run_of(5, 5)), (0x33A, 0, run_of(7, 7))
DRAWN, ROUTINES, GIVEN = run_of(1, 2), list_of(411, 413), list_of(5, 7)


def table_listed(drawn=DRAWN, routines=ROUTINES, given=GIVEN, own=None, heading=b"ZPCC\x02", results=(FIVE, SEVEN)):
    """A certificate of it, with what is drawn, which routines are called and what they give, as these are known."""
    places = [(0x324, 0, []), (0x328, 0, [drawn]), (0x32E, 0, [routines]), (0x332, 0, [given]), (0x335, 0, []), (0x337, 1, []), (0x33B, 2, [])]
    return certificate(TABLE, [(at, routine, [], slots) for at, routine, slots in places], routines=results, own=own, heading=heading)


def first_version(*sets):
    """One of version 1, in which a set is its two ends."""
    ends = lambda it: struct.pack(">hh", *it)
    return table_listed(*map(ends, sets), own=dict.fromkeys(range(16, 256), ends((0, 0))), heading=b"ZPCC\x01", results=[(0x336, 0, ends((5, 5))), (0x33A, 0, ends((7, 7)))])


LISTED = table_listed()
LISTING = b"00324 0 random\n00328 0 loadw\n0032e 0 call\n00332 0 print_num\n00335 0 quit\n00337 1 ret\n0033b 2 ret\n"

CALLS = [
    ("lists", LISTED, None),
    ("what is drawn as a list", table_listed(drawn=list_of(1, 2)), "K9"),
    ("routines in one interval", table_listed(routines=run_of(411, 413)), "I12 at 0032e"),
    ("a routine more than are listed", table_listed(routines=list_of(411, 413, 415)), "I12 at 0032e"),
    ("a routine that isn't there may be 0", table_listed(routines=list_of(0, 411, 413), given=list_of(0, 5, 7)), None),
    ("that gives 0 then", table_listed(routines=list_of(0, 411, 413)), "I4 at 0032e"),
    ("a routine less than are loaded", table_listed(routines=run_of(411, 411)), "I4 at 00328"),
    ("what is given in one interval", table_listed(given=run_of(5, 7)), None),
    ("a number less than are given", table_listed(given=run_of(5, 5)), "I4 at 0032e"),
    ("a number more than are given", table_listed(given=list_of(5, 6, 8, 7)), "K5"),
    ("others than are given", table_listed(given=list_of(4, 6, 8)), "I4 at 0032e"),
    ("three drawn", table_listed(drawn=run_of(1, 3)), "I10 at 00328"),
    ("one drawn", table_listed(drawn=run_of(1, 1)), "I4 at 00324"),
    ("in version 1, the routines from 411 to 413", first_version((1, 2), (411, 413), (5, 7)), "I4 at 00328"),
    ("in version 1, all between what is loaded", first_version((1, 2), (-25855, 413), (0, 7)), "I12 at 0032e"),
    # what isn't spelled as a set, in the place of what is given
    ("a list of one", table_listed(given=bytes.fromhex("0101 0005")), "K9"),
    ("a list of none", table_listed(given=bytes.fromhex("0100")), "K9"),
    ("a list that is an interval", table_listed(given=bytes.fromhex("0102 0005 0006")), "K9"),
    ("one of three", table_listed(given=list_of(-1, 0, 1)), "K9"),
    ("a list that falls", table_listed(given=bytes.fromhex("0102 0006 0005")), "K5"),
    ("a list with a number twice", table_listed(given=list_of(5, 5, 7)), "K5"),
    ("a list that rises without signs alone", table_listed(given=list_of(5, -7)), "K5"),
    ("kind 2", table_listed(given=bytes.fromhex("02 0005 0007")), "K9"),
    ("kind 255", table_listed(given=bytes.fromhex("FF 0005 0007")), "K9"),
    ("an interval with nothing in it", table_listed(given=run_of(7, 5)), "K6"),
    ("a list of 65", table_listed(given=list_of(*range(0, 130, 2))), "K9"),
    ("a list of 64 of which all are given", table_listed(given=list_of(*range(-113, 15, 2))), None),
    # versions
    ("read as version 1", changed(LISTED, 4, 1), "K4"),
    ("version 6", changed(LISTED, 4, 6), "K2"),
    ("read as version 4", changed(LISTED, 4, 4), "K7"),
    ("read as version 5", changed(LISTED, 4, 5), "K7"),
    ("version 0", changed(LISTED, 4, 0), "K2"),
    ("version 255", changed(LISTED, 4, 255), "K2"),
    ("version 1 read as 2", changed(first_version((1, 2), (411, 413), (5, 7)), 4, 2), "K6"),
    ("a byte behind it", LISTED + b"\0", "K4"),
    ("another story's", changed(LISTED, 6, 2), "S1"),
    ("nothing but its heading", LISTED[:5], "K3"),
]

# ---- a global that names one of two routines, at 32c and 330: it is called, and what it gives is printed

NAMED = changed(story(bytes.fromhex("E0BF1000 E6BF00 BA 009B05 00 009B07 00")), 0x40, 0x01, 0x96)


def named(routines, given=GIVEN, seven=run_of(7, 7)):
    places = [(0x324, 0, [], []), (0x328, 0, [], [given]), (0x32B, 0, [], []), (0x32D, 1, [], []), (0x331, 2, [], [])]
    return {"story": NAMED, "certificate": certificate(NAMED, places, routines=[(0x32C, 0, run_of(5, 5)), (0x330, 0, seven)], own={16: routines})}


NAMINGS = [
    ("two routines", named(list_of(406, 408)), None),
    ("all between them", named(run_of(406, 408)), "I12 at 00324"),
    ("a third that isn't there", named(list_of(406, 408, 410)), "I12 at 00324"),
    ("none of which is loaded", named(list_of(408, 410)), "S4"),
    ("one alone", named(run_of(406, 406), run_of(5, 5)), None),
    ("and 0", named(list_of(0, 406, 408), list_of(0, 5, 7)), None),
    ("what only one of them gives", named(list_of(406, 408), run_of(5, 5)), "I4 at 00324"),
    ("what the other may give too", named(list_of(406, 408), list_of(5, 7, 9), list_of(7, 9)), None),
    ("and what it doesn't", named(list_of(406, 408), list_of(5, 7), list_of(5, 9)), "I4 at 00324"),
    ("that one gives another", named(list_of(406, 408), list_of(5, 7), run_of(8, 8)), "I4 at 00324"),
]

# ---- a division: global 18 gets what global 16 gives by global 17. Where both don't tell their numbers one by one it is that of their
# hulls, which have 0 among the divisors; but 0 is none of them

DIVIDES = story(b"\x77\x10\x11\x12" + QUIT)


def divided(divisor, result):
    own = {16: run_of(0, 1000), 17: divisor, 18: result}
    made = changed(DIVIDES, 0x42, 0xFF, 0xFB)  # global 17 is -5 at first
    return {"story": made, "certificate": certificate(made, [(CODE, 0, [], []), (CODE + 4, 0, [], [])], own=own)}


DIVISIONS = [
    ("any number", list_of(-5, -1, 5), run_of(*WIDE), None),
    ("a number less at its end", list_of(-5, -1, 5), run_of(-32768, 32766), "I16 at 00324"),
    ("a number less at its beginning", list_of(-5, -1, 5), run_of(-32767, 32767), "I16 at 00324"),
    ("0 among the divisors", run_of(-5, 5), run_of(*WIDE), "I8 at 00324"),
    ("0 in their list", list_of(-5, 0, 5), run_of(*WIDE), "I8 at 00324"),
]

# ---- version 1 in version 2


class Recoder(Reader):
    """Reads version 1, and writes what it reads, with a kind before each interval."""

    def __init__(self, file):
        super().__init__(file)
        self.made = bytearray()

    def take(self, count):
        piece = super().take(count)
        self.made += piece
        return piece

    def set(self):
        self.made.append(0)
        return self.interval()


def recoded(file):
    """A certificate of version 1 in version 2, with the same intervals."""
    reader = Recoder(file)
    reader.read()
    return changed(bytes(reader.made), 4, 2)


class Marker(Reader):
    """Reads version 2, and writes what it reads, with marks at the addresses for which it is said."""

    def __init__(self, file, is_marked):
        super().__init__(file)
        self.made, self.is_marked = bytearray(), is_marked

    def take(self, count):
        piece = super().take(count)
        self.made += piece
        return piece

    def height(self, address):
        found = super().height(address)
        self.made[-1] |= 0x80 * self.is_marked(address)
        return found


def with_marks(file, is_marked, limit):
    """A certificate of version 2 in version 4, with these marks, and with this limit of frames behind the loaded length."""
    reader = Marker(file, is_marked)
    reader.read()
    made = changed(bytes(reader.made), 4, 4)
    return made[:19] + word(limit) + made[19:]


# ---- files at random


def drawn_set(chosen):
    if chosen.random() < 0.5:
        return run_of(*sorted(chosen.choice(((-32768, 32767), (0, 0), (chosen.randint(-9, 9), chosen.randint(-9, 9))))))
    while True:
        numbers = sorted(chosen.sample(range(-40, 40), chosen.choice((2, 2, 3, 5, 64))))
        if numbers[-1] - numbers[0] >= len(numbers):
            return list_of(*numbers)


def drawn_certificate(chosen):
    """What is read as a certificate of the table of routines, whatever it says."""
    some = lambda most: [drawn_set(chosen) for _ in range(chosen.randint(0, most))]
    places = sorted(chosen.sample(range(0x324, 0x360), chosen.randint(1, 6)))
    counts = [chosen.randint(0, 3) for _ in range(chosen.randint(0, 3))]
    routines = [(0x300 + 8 * at, count, drawn_set(chosen)) for at, count in enumerate(counts)]
    instructions = []
    for place in places:
        routine = chosen.randint(0, len(counts))
        locals_there = [drawn_set(chosen) for _ in range(([0] + counts)[routine])]
        instructions.append((place, routine, locals_there, some(3)))
    ranges = [(0x220 + 8 * at, 0x220 + 8 * at + chosen.randint(0, 6)) for at in range(chosen.randint(0, 2))]
    own = {number: drawn_set(chosen) for number in chosen.sample(range(16, 256), 20)}
    made = certificate(TABLE, instructions, ranges=ranges, routines=routines, own=own)
    if chosen.random() < 0.6:
        return made
    rate, limit = chosen.choice((0, 0.5, 1)), chosen.choice((0, 1, 1024, 4096))
    later = with_marks(made, lambda _: chosen.random() < rate, limit)
    return later if rate or chosen.random() < 0.5 else changed(later, 4, 3)


def damaged(file, chosen):
    """The file with some bytes altered, left out, put in or cut off."""
    made = bytearray(file)
    for _ in range(chosen.randint(1, 3)):
        at, count = chosen.randrange(len(made) + 1), chosen.choice((1, 1, 1, 2, 5))
        if chosen.random() < 0.5:  # behind the globals, or before them
            at = chosen.choice((at % 24, len(made) - at % 200))
        piece = bytes(chosen.choice((0, 1, 2, 3, 64, 65, 255, chosen.randrange(256))) for _ in range(count))
        made[at : at + chosen.choice((count, count, count, 0, len(made)))] = piece
    return bytes(made)


def alterations(file):
    """The file with each byte altered in five ways that isn't in the middle of the globals, and each beginning of it."""
    for at, byte in enumerate(file):
        if not 60 <= at < len(file) - 120:
            for new in sorted({0, 1, 2, 255, byte ^ 128} - {byte}):
                yield changed(file, at, new)
    for length in range(len(file)):
        yield file[:length]


# ---- runs


def answered(code):
    return Answer(1, b"", f"refused: {code}\n".encode()) if code else Answer(0, b"accepted\n", b"")


def see_table(program, count):
    for name, file, code in CALLS:
        count.see(refusal(file) == (int(code[1:]) if code and code[0] == "K" else None), f"lists: {name}: the reader says K{refusal(file)}")
        files = {"story": TABLE, "certificate": file}
        count.is_answer(f"lists: {name}", program.run(CHECK, files), answered(code))
        listed = answered(code) if code else Answer(0, LISTING, b"")
        count.is_answer(f"lists: {name}, listed", program.run(LIST_BY, files), listed)
        if code:
            count.is_answer(f"lists: {name}, played", program.run(PLAY_LISTED, files), answered(code))
    files = {"story": TABLE, "certificate": LISTED}
    printed = [b"57"[next(words_of(seed)) % 2 :][:1] for seed in range(8)]
    assert set(printed) == {b"5", b"7"} and len(LISTED) == 1313
    for seed, wanted in enumerate(printed):
        for words in (PLAY, PLAY_LISTED):
            count.is_answer(f"lists: seed {seed}, {words}", program.run([*words, "--seed", str(seed)], files), Answer(0, wanted, b""))
    for name, files, code in NAMINGS:
        count.is_answer(f"lists: what a global names, {name}", program.run(CHECK, files), answered(code))
        if code is None:
            for words in (PLAY, PLAY_LISTED):
                count.is_answer(f"lists: what a global names, {name}, {words}", program.run(words, files), Answer(0, b"5", b""))
    for name, divisor, result, code in DIVISIONS:
        count.is_answer(f"lists: a division, {name}", program.run(CHECK, divided(divisor, result)), answered(code))


def see_recoded(program, count, runs):
    """What is accepted in version 1 is accepted with the same intervals in version 2, and does the same; and so is the first that is wrong with
    a story, or another story's."""
    for name, words, files, wanted in runs:
        if "certificate" in words and (wanted.status == 0 or wanted.errors.startswith(b"refused: S")):
            given = {**files, "certificate": recoded(files["certificate"])}
            count.is_answer(f"in version 2, {name}", program.run(words, given), wanted)


def see_damage(program, count):
    """Files that are damaged are refused as a reader says that was written after the format's text."""
    chosen = random.Random(2)
    made = [*alterations(LISTED), *(damaged(drawn_certificate(chosen), chosen) for _ in range(600))]
    made += [drawn_certificate(chosen) for _ in range(40)]
    run = lambda file: program.run(CHECK, {"story": TABLE, "certificate": file})
    seen = set()
    for number, (file, answer) in enumerate(zip(made, side_by_side(run, made))):
        wanted = refusal(file)
        seen.add(wanted)
        told = answer.errors.startswith(b"refused: K")
        count.see(answer == answered(f"K{wanted}") if wanted else not told, f"lists, damage {number}: {answer}; the reader says K{wanted}")
    count.see(seen == {None, 1, 2, 3, 4, 5, 6, 7, 9}, f"lists, damage: {seen} alone were seen")


def see_lists(program, count, runs):
    see_table(program, count)
    see_recoded(program, count, runs)
    see_damage(program, count)
