"""Certificates of any story: a walk over the edges of its instructions, whether or not they keep the rules. What rules ask of a place is
then mostly all that is wrong with such a certificate."""
from certificates import Certificate
from edges import edges_of
from instructions import Listing, NoInstruction, decode
from intervals import ALL, single
from known import Known
from rules import finds_slots, has_variables, names_variable
from sets import both, words_in
from sites import Site
from stories import word_at

ROUNDS, MOST_JOINS, MOST_GROWN, MOST_CALLED = 12, 3, 6, 20


def ranges_of(places):
    """The fewest ranges that have these places."""
    firsts = sorted(it for it in places if it - 1 not in places)
    lasts = sorted(it for it in places if it + 1 not in places)
    return list(zip(firsts, lasts))


class Walk:
    """A certificate that grows until it holds what comes of each instruction."""

    def __init__(self, story, version, frozen=()):
        self.story, self.made, self.joins, self.changed = story, Certificate(), {}, False
        self.made.version = version
        memory = story.memory
        self.made.header, self.made.length = memory[2:4] + memory[0x12:0x18] + memory[0x1C:0x1E], story.length
        self.made.globals = [single(word_at(memory, story.globals + 2 * it)) for it in range(240)]
        self.made.ranges = ranges_of({*frozen, *self.sizes_of_buffers()})
        self.known = Known(story, self.made)
        self.known.has_property_tables()
        self.known.closed = self.known.closed or self.known.closed_places(set())
        self.made.instructions[story.first], self.waiting = (0, [], []), []
        for _ in range(ROUNDS):
            self.changed, self.waiting = False, list(self.made.instructions)
            while self.waiting:
                self.follow(self.waiting.pop())
            if not self.changed:
                break
        self.renumber()

    def sizes_of_buffers(self):
        """The first bytes of the buffers that instructions name."""
        found = (it for it in Listing(self.story).found.values() if it is not None and it.name == "sread")
        return [value for it in found for is_variable, value in it.operands if not is_variable and 64 <= value < self.story.static]

    def join(self, key, old, new):
        """The least set with both, or all words where it has grown too often."""
        joined = both(old, new) if self.made.has_lists else (min(old[0], new[0]), max(old[1], new[1]))
        if joined == old:
            return old
        self.changed = True
        self.joins[key] = self.joins.get(key, 0) + 1
        return joined if self.joins[key] <= (MOST_GROWN if self.made.has_lists else MOST_JOINS) else ALL

    def follow(self, place):
        try:
            it = decode(self.story, self.story.memory, place)
        except NoInstruction:
            return
        site = Site(self.known, it)
        if not names_variable(site) or not finds_slots(site) or not has_variables(site):
            return
        if it.name == "call":
            self.enter(site)
        for edge in edges_of(site):
            self.take(site, edge)

    def take(self, site, edge):
        for number, value in edge.globals:
            self.made.globals[number - 16] = self.join(number, self.made.globals[number - 16], value)
        if edge.returned is not None and site.routine:
            at, count, result = self.made.routines[site.routine - 1]
            self.made.routines[site.routine - 1] = (at, count, self.join(("result", at), result, edge.returned))
        elif edge.returned is None and edge.goes is not None:
            self.stand(edge.goes, site.routine, edge.locals, edge.slots)

    def stand(self, place, routine, values, slots):
        if place not in self.made.instructions:
            if 0 <= place < self.story.length and len(slots) <= 64:
                self.made.instructions[place] = (routine, list(values), list(slots))
                self.waiting.append(place)
                self.changed = True
            return
        _, old_values, old_slots = self.made.instructions[place]
        for which, old, new in (("local", old_values, values), ("slot", old_slots, slots)):
            for at, value in enumerate(new[: len(old)]):
                old[at] = self.join((place, which, at), old[at], value)

    def enter(self, site):
        called = [word for words in words_in(site.values[0]) for word in words[:MOST_CALLED]]
        for head in (2 * it for it in called if it):
            count = self.story.head_of(self.story.memory, head)
            if count is None:
                continue
            if head not in self.known.routine_at:
                self.made.routines.append((head, count, (0, 0)))
                self.known.routine_at[head] = len(self.made.routines)
            values = [(it, it) for it in (self.known.loaded_word(head + 1 + 2 * k) for k in range(count))]
            values[: len(site.values) - 1] = site.values[1 : count + 1]
            self.stand(head + 1 + 2 * count, self.known.routine_at[head], values, [])

    def renumber(self):
        """Numbers routines by their addresses, and sorts what is listed."""
        order = sorted(range(len(self.made.routines)), key=lambda it: self.made.routines[it])
        numbers = {0: 0, **{old + 1: new for new, old in enumerate(order, 1)}}
        self.made.routines = [self.made.routines[it] for it in order]
        self.made.instructions = {place: (numbers[it[0]], *it[1:]) for place, it in sorted(self.made.instructions.items())}
