"""Certificates of versions 1 to 5 as docs/CERTIFICATE.md spells them: how a file is read, and its first refusal (K1 to K7, K9).

Each number of the table there is a field by itself, also of a row that has several."""
import struct

from sets import SMALL, Numbers
from stories import Refused

PLACES, LOCALS, HEIGHT, INSTRUCTIONS, FRAMES, USUAL = 131072, 15, 64, 131072, 4096, 1024
VERSIONS, MARK, FACTS = (1, 2, 3, 4, 5), 0x80, 1048576


class Certificate:
    """What a certificate says. Routines are (address, count of locals, result), an instruction at an address is (routine, locals, slots). Marks
    are the addresses of those that are marked, and facts are sets by addresses and globals, which are counted from variable 16 on."""

    def __init__(self):
        self.ranges, self.globals, self.routines, self.instructions, self.marks = [], [], [], {}, set()
        self.header = self.length = None
        self.version, self.limit, self.facts = 1, USUAL, {}

    @property
    def has_lists(self):
        return self.version > 1

    @property
    def names_limit(self):
        return self.version > 2

    @property
    def has_marks(self):
        return self.version > 3

    @property
    def has_facts(self):
        return self.version > 4

    def facts_at(self, address):
        """The sets that are stated at an address, by globals."""
        return self.facts.get(address, {}) if self.has_facts else {}


class Fields:
    """Reads the fields of a file from its front."""

    def __init__(self, file):
        self.file, self.at, self.has_lists = file, 0, False

    def take(self, form):
        size = struct.calcsize(form)
        if self.at + size > len(self.file):
            raise Refused("K3")
        found = struct.unpack_from(form, self.file, self.at)
        self.at += size
        return found if len(found) > 1 else found[0]

    def interval(self):
        lower, upper = self.take(">hh")
        require(lower <= upper, "K6")
        return lower, upper

    def numbers(self):
        """A list: its words are fields by themselves."""
        count = self.take(">B")
        require(2 <= count <= SMALL, "K9")
        found = []
        for _ in range(count):
            word = self.take(">h")
            require(not found or word > found[-1], "K5")
            found.append(word)
        require(found[-1] - found[0] + 1 > count, "K9")
        return Numbers(found)

    def set(self):
        """A set, as the version spells it."""
        if not self.has_lists:
            return self.interval()
        kind = self.take(">B")
        require(kind <= 1, "K9")
        return self.numbers() if kind else self.interval()


def require(holds, code):
    if not holds:
        raise Refused(code)


def read(file):
    """The certificate that a file spells, or Refused."""
    fields, made = Fields(file), Certificate()
    require(fields.take(">4s") == b"ZPCC", "K1")
    made.version = fields.take(">B")
    require(made.version in VERSIONS, "K2")
    fields.has_lists = made.has_lists
    made.header, made.length = fields.take(">10s"), fields.take(">I")
    if made.names_limit:
        made.limit = fields.take(">H")
        require(made.limit <= FRAMES, "K7")
    read_ranges(fields, made)
    made.globals = [fields.set() for _ in range(240)]
    read_routines(fields, made)
    read_instructions(fields, made)
    if made.has_facts:
        read_facts(fields, made)
    require(fields.at == len(file), "K4")
    return made


def read_ranges(fields, made):
    for _ in range(fields.take(">H")):
        first, last = fields.take(">HH")
        require(first <= last and (not made.ranges or first > made.ranges[-1][1] + 1), "K5")
        made.ranges.append((first, last))


def read_routines(fields, made):
    for _ in range(fields.take(">H")):
        address = fields.take(">I")
        require(not made.routines or address > made.routines[-1][0], "K5")
        require(address < PLACES, "K7")
        count = fields.take(">B")
        require(count <= LOCALS, "K7")
        made.routines.append((address, count, fields.set()))


def read_instructions(fields, made):
    count, before = fields.take(">I"), -1
    require(count <= INSTRUCTIONS, "K7")
    for _ in range(count):
        address = fields.take(">I")
        require(address > before, "K5")
        require(address < PLACES, "K7")
        number = fields.take(">H")
        require(number <= len(made.routines), "K7")
        height = fields.take(">B")
        if made.has_marks and height & MARK:
            made.marks.add(address)
            height -= MARK
        require(height <= HEIGHT, "K7")
        values = [fields.set() for _ in range(made.routines[number - 1][1] if number else 0)]
        made.instructions[address] = (number, values, [fields.set() for _ in range(height)])
        before = address


def read_facts(fields, made):
    count, floor, least = fields.take(">I"), 0, 0
    require(count <= FACTS, "K7")
    for _ in range(count):
        address = fields.take(">I")
        require(address >= floor, "K5")
        require(address < PLACES, "K7")
        number = fields.take(">B")
        require(number >= (least if address == floor else 0), "K5")
        require(number < len(made.globals), "K7")
        made.facts.setdefault(address, {})[number] = fields.set()
        floor, least = address, number + 1
