"""What may come of an instruction: its edges that can be taken, each with what is known after it (docs/CERTIFICATE.md, "What is known after
an instruction")."""
from intervals import ALL, BYTE, by_ends, hull, single, told, worked_out
from sets import has, left_of, packed, within
from stories import signed, word_at

NEVER_TAKEN = {"quit", "restart"}
RETURNS = {"rtrue": 1, "rfalse": 0, "print_ret": 1}


class Edge:
    """One way behind an instruction: locals and slots after it, what globals are given, what else is known of globals then, by their indices, and
    where it leads or what it returns."""

    def __init__(self, site):
        self.site, self.locals, self.slots, self.globals = site, list(site.locals), list(site.slots), []
        self.facts = dict(site.facts)
        self.goes, self.returned = site.it.end, None

    @property
    def height(self):
        return len(self.slots)

    def give(self, number, value):
        """A result: pushed, put in a local, or given to a global."""
        if number == 0:
            self.slots.append(value)
        else:
            self.assign(number, value)

    def assign(self, number, value):
        if number == 0:
            self.slots[-1] = value
        elif number < 16:
            self.locals[number - 1] = value
        else:
            self.globals.append((number, value))
            self.facts[number - 16] = value

    def lies_in(self, number, kept):
        """Whether all that a global may be after it lies in a set."""
        return within(self.facts.get(number, self.site.known.certificate.globals[number]), kept)


def edges_of(site):
    name = site.it.name
    if name in NEVER_TAKEN:
        return []
    if name == "call":
        return calls(site)
    if site.it.branch:
        return [it for it in (branch(site, holds) for holds in (True, False)) if it]
    return [plain(site)]


def plain(site):
    """The edge of an instruction that has one."""
    edge, name = Edge(site), site.it.name
    if name in RETURNS:
        edge.returned = (RETURNS[name],) * 2
    elif name == "ret":
        edge.returned = site.values[0]
    elif name == "ret_popped":
        edge.returned = site.taken
    elif name == "jump":
        lower, upper = site.values[0]
        edge.goes = site.it.leads(lower) if lower == upper else None
    elif name == "push":
        edge.slots.append(site.values[0])
    elif name in ("inc", "dec"):
        edge.assign(site.named, worked_out(site.has_lists, name, [site.in_place()]))
    elif name in ("store", "pull"):
        edge.assign(site.named, site.values[1] if name == "store" else site.taken)
    elif site.it.to is not None:
        edge.give(site.it.to, result(site))
    return edge


def result(site):
    """The set of what an instruction gives."""
    name = site.it.name
    if name == "load":
        return site.in_place()
    if name == "get_parent":
        return 0, site.story.count
    if name in ("get_prop", "get_prop_addr"):
        return asked(site, answer if name == "get_prop" else data_address)
    if name in ("loadw", "loadb"):
        return loaded(site)
    return worked_out(site.has_lists, name, site.values)


def asked(site, of):
    """What is answered of the objects and the numbers that the operands may be: word by word where both are small and each two answer one."""
    pairs, count = site.pairs(), site.story.count
    if pairs:
        found = [of(site, number, it) for number in pairs[0] if 1 <= number <= count for it in pairs[1]]
        if found and all(it is not None and it[0] == it[1] for it in found):
            return packed(it[0] for it in found)
    (a, b), (c, d) = site.values[:2]
    numbers = [it for it in range(1, 32) if c <= it <= d] + [0] * (c < 1 or d > 31)  # 0 for all that no property has
    found = (of(site, number, it) for number in range(max(a, 1), min(b, count) + 1) for it in numbers)
    return hull(end for it in found if it is not None for end in it)


def answer(site, number, which):
    """What `get_prop` may answer of an object and a number, which is nothing where no property has it."""
    if not 1 <= which <= 31:
        return None
    known, found = site.known, site.known.sizes(number).get(which)
    if found is None:
        return single(site.story.default(site.story.memory, which))
    place, size = found
    if not known.all_fixed(range(place, place + size)):
        return BYTE if size == 1 else ALL
    return single(known.loaded_byte(place) if size == 1 else word_at(site.story.memory, place))


def data_address(site, number, which):
    """The address that `get_prop_addr` answers of an object and a number."""
    return single(site.known.sizes(number).get(which, (0, 0))[0])


def loaded(site):
    wide = site.it.name == "loadw"
    if not all(site.known.all_fixed(it) for it in site.elements()):
        return ALL if wide else BYTE
    byte = site.known.loaded_byte
    found = (signed(byte(it) * 256 + byte(it + 1)) if wide else byte(it) for places in site.addresses() for it in places)
    return packed(found) if site.pairs() else hull(found)


def calls(site):
    """The edges of a call: a routine is entered, of each that may be, and 0 is called."""
    called, found = site.values[0], []
    if called != (0, 0):
        found += [returned(site, it) for at, _, it in site.known.certificate.routines if at % 2 == 0 and at and has_word(called, at // 2)]
    return found + ([behind(site, (0, 0))] if has(called, 0) else [])


def has_word(some, word):
    return has(some, signed(word))


def returned(site, value):
    """The edge behind a routine, which may have given each global any value of its own set."""
    edge = behind(site, value)
    edge.facts = {}
    return edge


def behind(site, value):
    edge = Edge(site)
    edge.give(site.it.to, value)
    return edge


def branch(site, holds):
    """The edge of a branch on which its condition holds or fails, or None where it can't be taken."""
    edge, name = Edge(site), site.it.name
    if name == "restore" and holds:
        return None
    if name in ("inc_chk", "dec_chk"):
        possible = count(site, edge, holds)
    elif name in ("get_sibling", "get_child"):
        possible = not holds or site.story.count > 0
        edge.give(site.it.to, (1, site.story.count) if holds else (0, 0))
    else:
        possible = narrow(site, edge, told(name, [by_ends(it) for it in site.values], holds))
    if not possible:
        return None
    if holds == site.it.branch[0]:
        lead(site, edge)
    return edge


def lead(site, edge):
    offset = site.it.branch[1]
    if offset in (0, 1):
        edge.returned = (offset, offset)
    else:
        edge.goes = site.it.leads(offset)


def narrow(site, edge, left):
    """Keeps what is told of locals and globals; False where nothing is left of a value."""
    if None in left:
        return False
    for (is_variable, number), value, kept in zip(site.it.operands, site.values, left):
        if left_of(value, kept) is None:
            return False
        if is_variable and 0 < number < 16:
            both = left_of(edge.locals[number - 1], kept)
            if both is None:
                return False
            edge.locals[number - 1] = both
        elif is_variable and number >= 16:
            edge.facts[number - 16] = left_of(value, kept)
    return True


def count(site, edge, holds):
    """What `inc_chk` and `dec_chk` make of a variable, and tell of a local."""
    up, bound = site.it.name == "inc_chk", site.values[1]
    value = worked_out(site.has_lists, "inc" if up else "dec", [site.in_place()])
    if 0 < site.named < 16:
        if up:
            value = left_of(value, (bound[0] + 1, 32768) if holds else (-32769, bound[1]))
        else:
            value = left_of(value, (-32769, bound[1] - 1) if holds else (bound[0], 32768))
        if value is None:
            return False
    edge.assign(site.named, value)
    return True
