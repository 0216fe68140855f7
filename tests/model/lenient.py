"""Lenient play as docs/MACHINE.md has it: what is customary is done in the place of a fault, and what is out of the profile is passed over."""
from instructions import EXCLUDED, VARIABLE, LARGE, OMITTED, Instruction, NoInstruction, Reader
from machine import Machine, Step
from operations import Fault
from stories import word_at

EXCUSABLE = {2, 6, 7, 8, 9, 10, 11, 12, 13}
GIVE_ZERO = {"div", "mod", "get_parent", "get_prop_addr", "get_next_prop", "get_prop_len", "loadw", "loadb"}
DO_NOTHING = {
    "set_attr", "clear_attr", "insert_obj", "remove_obj", "put_prop", "storew", "storeb", "print_obj", "print_addr", "print_paddr", "passed over",
}  # fmt: skip
SET_WINDOW, OUTPUT_STREAM = 11, 19


class Excused(Step):
    """What is done in the place of a fault, judged as any step."""

    def __init__(self, machine, it, number):
        self.number = number
        super().__init__(machine, it)
        if not 0 <= self.leads() < len(self.memory):
            raise Fault(number)

    def operate(self, values):
        self.values, name, effect = values, self.it.name, self.effect
        if name == "jin":
            effect.tested = values[1] == 0
        elif name == "test_attr":
            effect.tested = False
        elif name in ("get_sibling", "get_child"):
            effect.given, effect.tested = 0, False
        elif name == "get_prop":
            effect.given = self.first_word(*values) if self.number == 9 else 0
        elif name in GIVE_ZERO:
            effect.given = 0
        elif name not in DO_NOTHING:
            raise Fault(self.number)

    def first_word(self, number, which):
        return word_at(self.memory, self.story.property(self.memory, number, which)[0])

    def leads(self):
        effect = self.effect
        if effect.returned is not None:
            return self.frame.back
        return self.it.end if effect.goes is None else effect.goes

    def make(self):
        super().make()
        self.machine.note(self)


class LenientMachine(Machine):
    """A machine that goes on after faults, with what is seen of its text and what was answered: each place's first fault, and how many."""

    def __init__(self, *given, **options):
        self.shown, self.window, self.firsts, self.count = True, 0, {}, 0
        super().__init__(*given, **options)

    def judged(self):
        try:
            return super().judged()
        except Fault as fault:
            number = fault.args[0]
            if number not in EXCUSABLE:
                raise
            return Excused(self, self.passed() if number == 2 else self.instruction(), number)

    def passed(self):
        """What is out of the profile, with all its operands; what can't be decoded stays a fault (Z 4.4.3)."""
        try:
            reader = Reader(self.memory, self.place)
            first = reader.byte()
            if first < 0xE0 or (first & 31) not in EXCLUDED:
                raise Fault(2)
            types = reader.byte()
            kinds = [types >> shift & 3 for shift in (6, 4, 2, 0)]
            kinds = kinds[: kinds.index(OMITTED)] if OMITTED in kinds else kinds
            operands = [(kind == VARIABLE, reader.word() if kind == LARGE else reader.byte()) for kind in kinds]
        except NoInstruction:
            raise Fault(2)
        it = Instruction("passed over", self.place, operands, None, None, None, reader.at)
        it.number = first & 31
        return it

    def give(self, text):
        if self.shown and self.window == 0:
            super().give(text)

    def note(self, step):
        """Counts a fault that was answered, and turns the stream or selects the window."""
        self.firsts.setdefault(step.it.place, step.number)
        self.count += 1
        if step.it.name != "passed over":
            return
        value = step.values[0] if step.values else 0
        if step.it.number == SET_WINDOW:
            self.window = value
        elif step.it.number == OUTPUT_STREAM and value in (1, 0xFFFF):
            self.shown = value == 1
