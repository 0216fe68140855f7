"""A listed instruction with what a certificate says before it: the sets of its operands, and what they name."""
from intervals import single
from sets import numbers_of, within_ends

NAMING = {"inc", "dec", "inc_chk", "dec_chk", "store", "load", "pull"}
POPPING = {"pull", "pop", "ret_popped"}
OBJECTS = {
    "jin": (0,), "test_attr": (0,), "set_attr": (0,), "clear_attr": (0,), "get_sibling": (0,), "get_child": (0,), "get_parent": (0,),
    "insert_obj": (0, 1), "remove_obj": (0,), "get_prop": (0,), "get_prop_addr": (0,), "get_next_prop": (0,), "put_prop": (0,), "print_obj": (0,),
}  # fmt: skip


class Site:
    """The values of the operands, what is left on the stack behind them, the variable that an operand names, and what is lacking."""

    def __init__(self, known, it):
        self.known, self.story, self.it, self.has_lists = known, known.story, it, known.certificate.has_lists
        self.routine, values, slots = known.certificate.instructions[it.place]
        self.locals, self.slots, self.facts = list(values), list(slots), known.certificate.facts_at(it.place)
        self.lacks_slot = self.lacks_local = False
        self.values = [self.variable(number) if is_variable else single(number) for is_variable, number in it.operands]
        self.taken = self.pop() if it.name in POPPING else None
        self.named = self.values[0][0] if it.name in NAMING and self.values[0] is not None else None

    def pop(self):
        if not self.slots:
            self.lacks_slot = True
            return None
        return self.slots.pop()

    def variable(self, number):
        if number == 0:
            return self.pop()
        return self.kept(number)

    def kept(self, number):
        """The set of a local or a global, or None where there is no such local."""
        if number >= 16:
            return self.facts.get(number - 16, self.known.certificate.globals[number - 16])
        if number > len(self.locals):
            self.lacks_local = True
            return None
        return self.locals[number - 1]

    def in_place(self):
        """The set of the variable that an operand names."""
        return self.slots[-1] if self.named == 0 else self.kept(self.named)

    def objects(self):
        """The objects of the story that the first operand may name."""
        return within_ends(self.values[0], 1, self.story.count)

    def property_numbers(self):
        """The numbers that a property may have and the second operand may name."""
        return within_ends(self.values[1], 1, 31)

    def pairs(self):
        """The numbers of the first two operands, where both tell them in version 2, else None."""
        found = [numbers_of(it) for it in self.values[:2]]
        return found if self.has_lists and None not in found else None

    def elements(self):
        """The places of all bytes that a load or store may reach, as ranges: a word at 65,535 has one at 65,536."""
        wide = self.it.name in ("loadw", "storew")
        return [range(it.start, it.stop + wide) for it in self.addresses()]

    def addresses(self):
        """The addresses at which an element may begin, as ranges."""
        times, pairs = 2 if self.it.name in ("loadw", "storew") else 1, self.pairs()
        if pairs:
            return [range(it, it + 1) for it in sorted({(a + times * b) % 65536 for a in pairs[0] for b in pairs[1]})]
        (a, b), (c, d) = self.values[:2]
        lower, upper = a + times * c, b + times * d
        if upper - lower >= 65535:
            return [range(0, 65536)]
        lower, upper = lower % 65536, upper % 65536
        return [range(lower, upper + 1)] if lower <= upper else [range(0, upper + 1), range(lower, 65536)]
