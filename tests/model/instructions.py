"""Instructions of version 3 and the listing of a story, as docs/MACHINE.md has them (Z 4, 14; J1 to J5, U1 to U3)."""
from stories import Refused, signed, word_at

TWO = "je jl jg dec_chk inc_chk jin test or and test_attr set_attr clear_attr store insert_obj loadw loadb get_prop get_prop_addr get_next_prop add sub mul div mod".split()
ONE = "jz get_sibling get_child get_parent get_prop_len inc dec print_addr - remove_obj print_obj ret jump print_paddr load not".split()
NONE = "rtrue rfalse print print_ret nop save restore restart ret_popped pop quit new_line show_status verify".split()
MORE = "call storew storeb put_prop sread print_char print_num random push pull".split()
EXCLUDED = {10, 11, 19, 20, 21}
OPCODES = [it for it in TWO + ONE + NONE + MORE if it != "-"]

STORES = set(
    "or and loadw loadb get_prop get_prop_addr get_next_prop add sub mul div mod get_sibling get_child get_parent get_prop_len load not call random".split()
)
BRANCHES = set("je jl jg dec_chk inc_chk jin test test_attr jz get_sibling get_child save restore verify".split())
TEXTS = {"print", "print_ret"}
COUNTS = {"je": (2, 4), "call": (1, 4), "storew": (3, 3), "storeb": (3, 3), "put_prop": (3, 3), "sread": (2, 2)}
LARGE, SMALL, VARIABLE, OMITTED = range(4)
ENDS = {"ret", "rtrue", "rfalse", "ret_popped", "print_ret", "quit", "restart", "jump"}


class NoInstruction(Exception):
    """No instruction stands at a place: J1 to J5."""


class Instruction:
    """An instruction: its name, its operands as (is a variable, number), and what follows them."""

    def __init__(self, name, place, operands, to, branch, text, end):
        self.name, self.place, self.operands, self.to = name, place, operands, to
        self.branch, self.text, self.end = branch, text, end

    def leads(self, offset):
        """Where a branch or jump of an offset leads (Z 4.7.2)."""
        return self.end + offset - 2


class Reader:
    """Reads bytes from a place on, up to the end of memory."""

    def __init__(self, memory, place):
        self.memory, self.at = memory, place

    def byte(self):
        if not 0 <= self.at < len(self.memory):
            raise NoInstruction("J1")
        self.at += 1
        return self.memory[self.at - 1]

    def word(self):
        return self.byte() * 256 + self.byte()


def name_of(first):
    """The opcode of a first byte, and the kinds of its operands, None where a type byte follows (Z 4.3)."""
    if first < 0x80:
        kinds = [VARIABLE if first & 0x40 else SMALL, VARIABLE if first & 0x20 else SMALL]
        return two(first & 31), kinds
    if first < 0xC0:
        kind = first >> 4 & 3
        table, kinds = (NONE, []) if kind == OMITTED else (ONE, [kind])
        if (first & 15) >= len(table) or table[first & 15] == "-":
            raise NoInstruction("J2")
        return table[first & 15], kinds
    if first < 0xE0:
        return two(first & 31), None
    if (first & 31) in EXCLUDED:
        raise NoInstruction("J3")
    if (first & 31) >= len(MORE):
        raise NoInstruction("J2")
    return MORE[first & 31], None


def two(number):
    if not 1 <= number <= len(TWO):
        raise NoInstruction("J2")
    return TWO[number - 1]


def kinds_in(name, types):
    """The kinds of operands that a type byte spells, whose number the opcode has to take."""
    kinds = [types >> shift & 3 for shift in (6, 4, 2, 0)]
    kinds = kinds[: kinds.index(OMITTED)] if OMITTED in kinds else kinds
    least, most = COUNTS.get(name, (2, 2) if name in TWO else (1, 1))
    if not least <= len(kinds) <= most:
        raise NoInstruction("J4")
    return kinds


def branch_of(reader):
    """The sense of a branch and its offset (Z 4.7)."""
    first = reader.byte()
    if first & 0x40:
        return bool(first & 0x80), first & 63
    offset = (first & 63) << 8 | reader.byte()
    return bool(first & 0x80), offset - 16384 if offset >= 8192 else offset


def decode(story, memory, place):
    """The instruction at a place, or NoInstruction."""
    reader = Reader(memory, place)
    name, kinds = name_of(reader.byte())
    if kinds is None:
        kinds = kinds_in(name, reader.byte())
    operands = [(kind == VARIABLE, reader.word() if kind == LARGE else reader.byte()) for kind in kinds]
    to = reader.byte() if name in STORES else None
    branch = branch_of(reader) if name in BRANCHES else None
    text = reader.at if name in TEXTS else None
    if text is not None:
        reader.at = story.text_end(memory, text)
        if reader.at is None:
            raise NoInstruction("J5")
    return Instruction(name, place, operands, to, branch, text, reader.at)


# ---- what a story lists


def next_places(it):
    """The places to which an instruction may lead."""
    if it.name == "jump":
        is_variable, value = it.operands[0]
        return [] if is_variable else [it.leads(signed(value))]
    if it.name == "restore":
        sense, offset = it.branch
        if sense:
            return [it.end]
        return [] if offset in (0, 1) else [it.leads(offset)]
    found = [] if it.name in ENDS else [it.end]
    if it.branch and it.branch[1] not in (0, 1):
        found.append(it.leads(it.branch[1]))
    return found


class Listing:
    """What a story lists: the instructions with their owners (0, or the address of a routine), and what is at fault."""

    def __init__(self, story):
        self.story, self.found, self.owners, self.heads, self.faults = story, {}, {}, set(), []
        self.waiting = [(story.first, 0)]
        while self.waiting:
            self.take(*self.waiting.pop())
        for place, owners in self.owners.items():
            if len(owners) > 1 and self.found[place] is not None:
                self.faults.append((place, 0, "U2"))

    def take(self, place, owner):
        owners = self.owners.setdefault(place, set())
        if owner in owners or len(owners) > 1:
            return
        owners.add(owner)
        if place not in self.found:
            self.read(place)
        it = self.found[place]
        if it is not None:
            self.waiting += [(where, owner) for where in next_places(it)]

    def read(self, place):
        """Decodes an instruction once, and enters the routine that it calls by a constant."""
        try:
            it = self.found[place] = decode(self.story, self.story.memory, place)
        except NoInstruction:
            self.found[place] = None
            self.faults.append((place, 0, "U1"))
            return
        if it.name == "jump" and it.operands[0][0]:
            self.faults.append((place, 0, "U3"))
        if it.name == "call" and not it.operands[0][0] and it.operands[0][1]:
            self.enter(2 * it.operands[0][1])

    def enter(self, head):
        if head in self.heads:
            return
        self.heads.add(head)
        count = self.story.head_of(self.story.memory, head)
        if count is None:
            self.faults.append((head, 1, "U1"))
        else:
            self.waiting.append((head + 1 + 2 * count, head))

    def lines(self):
        """The lines of `list`, or Refused: of those at one address an instruction comes before a head, and then the lower number."""
        if self.faults:
            place, _, code = min(self.faults)
            raise Refused(code, place)
        numbers = {head: number for number, head in enumerate(sorted(self.heads), 1)}
        numbers[0] = 0
        return b"".join(line_of(place, numbers[min(self.owners[place])], self.found[place].name) for place in sorted(self.found))


def line_of(place, number, name):
    return b"%05x %d %s\n" % (place, number, name.encode())
