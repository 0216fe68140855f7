#!/usr/bin/env python3
"""A search for what would show that `no certificate:` is said wrongly.

    falsify.py PROGRAM [STORIES [SEED [CERTIFICATES]]]

Small random stories are made, and of each it is asked what `find` answers. Where it says that each certificate breaks a rule, certificates are
made by other means, with sets of a small grid, and none may be accepted: `check` decides. They are made by a walk of this script's own,
after docs/CERTIFICATE.md alone, which takes for what routines give, for globals and for the locals that a routine begins with sets of the
grid beside what comes of the code; and of each that it makes also copies with other sets here and there. So of a story with few variables most
sets of the grid are tried. Each is tried once more as one of version 2, in which sets are lists here and there. Every certificate that `find`
writes is checked too, and has to have as many marks as were told.

It ends with how many stories and certificates were tried, and of how many stories that `find` answers otherwise the walk here has a
certificate.
"""
import itertools
import os
import random
import re
import struct
import subprocess
import sys
import tempfile

from program import Count, side_by_side
from samples import STATIC, certificate, story, with_objects

ANY = (-32768, 32767)
FOUND = re.compile(rb"found(, marked: [1-9][0-9]*)?\n")
GRID = [(0, 0), (1, 1), (2, 2), (16, 16), (-1, -1), (0, 1), (1, 2), (0, 2), (0, 10), (1, 10), (-1, 1), (0, 255), (1, 255), (0, 32767), (1, 32767), ANY]
ENDS = sorted({-32768, -1, 0, 1, 2, 3, 7, 10, 31, 32, 255, 256, 32767})
LARGE, SMALL, VARIABLE, NONE = range(4)


# ---- instructions

class Line:
    """An instruction: its name, operands (a kind with a number: 'c' a constant, 'v' a variable, 'r' the packed address of a routine), result
    variable, and where it branches or jumps: to the instruction of an index, or 'true' or 'false', which return."""

    def __init__(self, name, operands=(), result=None, sense=True, to=None):
        self.name, self.operands, self.result, self.sense, self.to = name, list(operands), result, sense, to


TWO = {"je": 1, "jl": 2, "jg": 3, "dec_chk": 4, "inc_chk": 5, "jin": 6, "or": 8, "and": 9, "test_attr": 10, "set_attr": 11, "store": 13,
       "insert_obj": 14, "loadw": 15, "loadb": 16, "get_prop": 17, "add": 20, "sub": 21, "mul": 22, "div": 23, "mod": 24}
ONE = {"jz": 0, "get_sibling": 1, "get_child": 2, "get_parent": 3, "inc": 5, "dec": 6, "print_obj": 10, "ret": 11, "jump": 12, "load": 14, "not": 15}
NOTHING = {"rtrue": 0, "rfalse": 1, "nop": 4, "ret_popped": 8, "quit": 10, "new_line": 11}
MANY = {"call": 0, "storew": 1, "storeb": 2, "put_prop": 3, "sread": 4, "print_num": 6, "random": 7, "push": 8, "pull": 9}
BRANCHES = {"je", "jl", "jg", "dec_chk", "inc_chk", "jin", "test_attr", "jz", "get_sibling", "get_child"}


def kind(operand):
    what, number = operand
    if what == "v":
        return VARIABLE
    return SMALL if what == "c" and 0 <= number < 256 else LARGE


def spelled(line, places, packed, next_place):
    """Its bytes; places are those of the instructions of its code, once they are known."""
    out = bytearray()
    kinds = [kind(it) for it in line.operands]
    if line.name in NOTHING:
        out.append(0xB0 | NOTHING[line.name])
    elif line.name in ONE:
        shape = LARGE if line.name == "jump" else kinds[0]
        out.append(0x80 | shape << 4 | ONE[line.name])
    else:
        out.append(0xC0 | TWO[line.name] if line.name in TWO else 0xE0 | MANY[line.name])
        types = kinds + [NONE] * (4 - len(kinds))
        out.append(types[0] << 6 | types[1] << 4 | types[2] << 2 | types[3])
    for (what, number), shape in zip(line.operands, kinds):
        value = packed[number] if what == "r" else number & 0xFFFF
        out += struct.pack(">H", value) if shape == LARGE else bytes([value])
    if line.name == "jump":
        out += struct.pack(">h", places[line.to] - next_place + 2 if places else 0)
    if line.result is not None:
        out.append(line.result)
    if line.name in BRANCHES:
        top = 0x80 if line.sense else 0
        if line.to in ("true", "false"):
            out.append(top | 0x40 | (line.to == "true"))
        else:
            distance = (places[line.to] - next_place + 2 if places else 0) & 0x3FFF
            out += bytes([top | distance >> 8, distance & 0xFF])
    return bytes(out)


class Routine:
    def __init__(self, lines, initial=()):
        self.lines, self.initial = lines, list(initial)


class Story:
    """A story of routines, of which the first is the main code."""

    def __init__(self, routines, objects):
        self.routines, self.objects = routines, objects
        make, self.begin, self.static = (with_objects, 0x370, 0x29A) if objects else (story, 0x324, STATIC)
        self.heads, self.places, at = [0], [], self.begin
        packed = [0] * len(routines)
        for number, routine in enumerate(routines):
            if number:
                at += at % 2
                self.heads.append(at)
                packed[number] = at // 2
                at += 1 + 2 * len(routine.initial)
            places = []
            for line in routine.lines:
                places.append(at)
                at += len(spelled(line, None, packed, 0))
            self.places.append(places + [at])
        code = bytearray()
        for number, routine in enumerate(routines):
            if number:
                code += bytes(self.heads[number] - self.begin - len(code))
                code.append(len(routine.initial))
                code += b"".join(struct.pack(">H", it & 0xFFFF) for it in routine.initial)
            for index, line in enumerate(routine.lines):
                code += spelled(line, self.places[number], packed, self.places[number][index + 1])
        self.packed, self.file = packed, make(bytes(code))
        self.number_of = {it: number for number, it in enumerate(packed) if number}


def drawn_story(draw):
    objects = draw.random() < 0.3
    count = draw.choice([1, 1, 2, 2, 3])
    locals_of = [0] + [draw.choice([0, 1, 1, 2]) for _ in range(count)]
    routines = []
    for number in range(count + 1):
        lines = drawn_lines(draw, number, locals_of[number], count, objects)
        routines.append(Routine(lines, [draw.choice([0, 0, 1, 2, 16]) for _ in range(locals_of[number])]))
    return Story(routines, objects)


def drawn_lines(draw, number, local_count, count, objects):
    length = draw.randint(1, 5)
    variables = [*range(1, local_count + 1)] * 2 + [16, 17]
    constants = [0, 0, 1, 1, 2, 3, 10, 16, 255, 0x100, 0x240, 0x300, 0x340, -1, -2]

    def value():
        if draw.random() < 0.45:
            return ("c", draw.choice(constants))
        return ("v", draw.choice(variables + [0]) if draw.random() < 0.2 else draw.choice(variables))

    def result():
        return draw.choice([0] + variables * 2)

    def place():
        if number and draw.random() < 0.3:
            return draw.choice(["true", "false"])
        return draw.randint(0, length)

    def branch(name, operands, **more):
        return Line(name, operands, sense=draw.random() < 0.5, to=place(), **more)

    def line():
        pick = draw.random()
        if pick < 0.22:
            callee = ("r", draw.randint(1, count)) if draw.random() < 0.75 else value()
            return Line("call", [callee, *(value() for _ in range(draw.choice([0, 0, 1, 2])))], result())
        if pick < 0.30:
            return Line("store", [("c", draw.choice(variables)), ("r", draw.randint(1, count))])
        if pick < 0.36:
            return Line("store", [("c", draw.choice(variables)), value()])
        if pick < 0.50:
            name = draw.choice(["add", "sub", "mul", "div", "div", "mod", "and", "or"])
            return Line(name, [value(), value()], result())
        if pick < 0.62:
            if draw.random() < 0.4:
                return branch("jz", [value()])
            return branch(draw.choice(["je", "jl", "jg"]), [value(), value()])
        if pick < 0.70:
            if draw.random() < 0.6:
                return branch(draw.choice(["inc_chk", "dec_chk"]), [("c", draw.choice(variables)), ("c", draw.choice([0, 1, 3, 7]))])
            return Line(draw.choice(["inc", "dec"]), [("c", draw.choice(variables)) if draw.random() < 0.9 else value()])
        if pick < 0.76:
            name = draw.choice(["loadb", "loadw", "storeb", "storew"])
            last = [value()] if name[0] == "s" else []
            return Line(name, [value(), value(), *last], None if last else result())
        if pick < 0.80:
            return Line("push", [value()]) if draw.random() < 0.6 else Line("pull", [("c", draw.choice(variables))])
        if pick < 0.84:
            return Line("random", [value()], result())
        if pick < 0.86:
            return Line("load", [("c", draw.choice(variables))], result())
        if pick < 0.93 and objects:
            name = draw.choice(["get_parent", "test_attr", "set_attr", "get_child", "print_obj", "get_prop", "insert_obj"])
            if name == "get_parent":
                return Line(name, [value()], result())
            if name == "get_child":
                return branch(name, [value()], result=result())
            if name == "test_attr":
                return branch(name, [value(), ("c", draw.choice([0, 5, 31]))])
            if name == "print_obj":
                return Line(name, [value()])
            if name == "get_prop":
                return Line(name, [value(), ("c", draw.choice([5, 7]))], result())
            return Line(name, [value(), ("c", 1)])
        return Line("print_num", [value()])

    lines = [line() for _ in range(length)]
    pick = draw.random()
    if number == 0:
        end = Line("quit") if pick < 0.8 else Line("jump", to=draw.randint(0, length))
    elif pick < 0.35:
        end = Line(draw.choice(["rtrue", "rfalse"]))
    elif pick < 0.5:
        end = Line("ret", [value()])
    elif pick < 0.85:
        end = Line("quit")
    else:
        end = Line("jump", to=draw.randint(0, length))
    lines.append(end)
    return lines


# ---- sets

def hull(one, other):
    return other if one is None else one if other is None else (min(one[0], other[0]), max(one[1], other[1]))


def meet(one, other):
    least, greatest = max(one[0], other[0]), min(one[1], other[1])
    return (least, greatest) if least <= greatest else None


def fitting(ends):
    least, greatest = min(ends), max(ends)
    return (least, greatest) if -32768 <= least and greatest <= 32767 else ANY


def truncated(a, b):
    return abs(a) // abs(b) * (1 if (a < 0) == (b < 0) else -1)


def computed(name, a, b):
    if name == "add":
        return fitting([a[0] + b[0], a[1] + b[1]])
    if name == "sub":
        return fitting([a[0] - b[1], a[1] - b[0]])
    if name == "mul":
        return fitting([x * y for x in a for y in b])
    if name in ("div", "mod") and b[0] <= 0 <= b[1]:
        return ANY
    if name == "div":
        return fitting([truncated(x, y) for x in a for y in b])
    if name == "mod":
        most = max(abs(b[0]), abs(b[1])) - 1
        return meet((-most, most), hull((0, 0), a))
    if a[0] == a[1] and b[0] == b[1]:
        bits = (a[0] & b[0] if name == "and" else a[0] | b[0]) & 0xFFFF
        return (bits - 65536 * (bits > 32767),) * 2
    if name == "and":
        tops = [it[1] for it in (a, b) if it[0] >= 0]
        return (0, min(tops)) if tops else ANY
    return (0, 32767) if a[0] >= 0 and b[0] >= 0 else ANY


def without(one, other):
    if other[0] != other[1]:
        return one
    least, greatest = one
    if other[0] == least:
        least += 1
    elif other[0] == greatest:
        greatest -= 1
    return (least, greatest) if least <= greatest else None


def narrowed(question, answer, a, b):
    """What is left of two sets, if anything."""
    if question == "equal":
        left = (meet(a, b),) * 2 if answer else (without(a, b), without(b, a))
    elif question == "more":
        turned = narrowed("less", answer, b, a)
        left = turned and (turned[1], turned[0])
    elif answer:
        left = (meet(a, (-32768, b[1] - 1)) if b[1] > -32768 else None, meet(b, (a[0] + 1, 32767)) if a[0] < 32767 else None)
    else:
        left = (meet(a, (b[0], 32767)), meet(b, (-32768, a[1])))
    return left if left and left[0] and left[1] else None


# ---- a walk

class Broken(Exception):
    """A rule is broken, by what this script makes of it: the walk goes on elsewhere, since `check` decides."""


class Frame:
    def __init__(self, routine, local_sets, slots):
        self.routine, self.locals, self.slots = routine, list(local_sets), list(slots)

    def copy(self):
        return Frame(self.routine, self.locals, self.slots)


class Walk:
    def __init__(self, made, results, global_sets, entries):
        self.made, self.entries = made, entries
        self.results = dict(results)
        self.globals = {number: hull((0, 0), global_sets.get(number)) for number in range(16, 18)}
        self.known, self.growths, self.waiting, self.entered = {}, {}, [], set()
        self.written = set()
        self.reach((0, 0), Frame(0, [], []))
        for _ in range(2000):
            if not self.waiting:
                return
            try:
                self.visit(self.waiting.pop(0))
            except Broken:
                pass

    def grow(self, key, before, more):
        joined = hull(before, more)
        if before is None or joined == before:
            return joined
        self.growths[key] = self.growths.get(key, 0) + 1
        if self.growths[key] > 40:
            return ANY
        if self.growths[key] > 6:
            least = joined[0] if joined[0] == before[0] else max(it for it in ENDS if it <= joined[0])
            greatest = joined[1] if joined[1] == before[1] else min(it for it in ENDS if it >= joined[1])
            return (least, greatest)
        return joined

    def wake_all(self):
        self.waiting += [at for at in self.known if at not in self.waiting]

    def reach(self, at, frame):
        there = self.known.get(at)
        if there is None:
            self.known[at] = frame.copy()
        else:
            if len(there.slots) != len(frame.slots):
                raise Broken
            changed = False
            for name in ("locals", "slots"):
                sets = getattr(there, name)
                for index, more in enumerate(getattr(frame, name)):
                    grown = self.grow((at, name, index), sets[index], more)
                    changed |= grown != sets[index]
                    sets[index] = grown
            if not changed:
                return
        if at not in self.waiting:
            self.waiting.append(at)

    def give_result(self, routine, given):
        grown = self.grow(("result", routine), self.results.get(routine), given)
        if grown != self.results.get(routine):
            self.results[routine] = grown
            self.wake_all()

    def read(self, frame, variable):
        if variable == 0:
            if not frame.slots:
                raise Broken
            return frame.slots.pop()
        if variable < 16:
            if variable > len(frame.locals):
                raise Broken
            return frame.locals[variable - 1]
        return self.globals.get(variable, (0, 0))

    def give(self, frame, variable, given, in_place=False):
        if variable == 0:
            if in_place:
                frame.slots[-1:] = [given] if frame.slots else []
                return
            if len(frame.slots) > 60:
                raise Broken
            frame.slots.append(given)
        elif variable < 16:
            if variable > len(frame.locals):
                raise Broken
            frame.locals[variable - 1] = given
        else:
            grown = self.grow(("global", variable), self.globals.get(variable, (0, 0)), given)
            if variable not in self.globals:
                raise Broken
            if grown != self.globals[variable]:
                self.globals[variable] = grown
                self.wake_all()

    def named(self, frame, operand, value):
        """The variable that an operand names."""
        if value[0] != value[1] or not 0 <= value[0] <= 255:
            raise Broken
        variable = value[0]
        if variable == 0 and not frame.slots or variable < 16 and variable > len(frame.locals):
            raise Broken
        return variable

    def top(self, frame, variable):
        return frame.slots[-1] if variable == 0 else self.read(frame, variable)

    def visit(self, at):
        number, index = at
        made = self.made
        line, frame = made.routines[number].lines[index], self.known[at].copy()
        values, sources = [], []
        for what, word in line.operands:
            word = made.packed[word] if what == "r" else word
            signed = (word + 32768) % 65536 - 32768
            values.append(self.read(frame, word) if what == "v" else (signed, signed))
            sources.append(word if what == "v" and 1 <= word < 16 else None)
        self.act(at, line, frame, values, sources)

    def go_on(self, at, frame):
        number, index = at
        if index + 1 >= len(self.made.routines[number].lines):
            raise Broken
        self.reach((number, index + 1), frame)

    def go_to(self, at, frame, line, answer):
        if answer != line.sense:
            self.go_on(at, frame)
        elif line.to in ("true", "false"):
            self.give_back(at[0], (1, 1) if line.to == "true" else (0, 0))
        else:
            self.reach((at[0], line.to), frame)

    def give_back(self, number, given):
        if number == 0:
            raise Broken
        self.give_result(number, given)

    def within(self, given, least, greatest):
        if not least <= given[0] <= given[1] <= greatest:
            raise Broken

    def act(self, at, line, frame, values, sources):
        name, number = line.name, at[0]
        if name in ("print_num", "nop", "new_line"):
            return self.go_on(at, frame)
        if name == "quit":
            return None
        if name == "jump":
            return self.reach((number, line.to), frame)
        if name in ("rtrue", "rfalse"):
            return self.give_back(number, (1, 1) if name == "rtrue" else (0, 0))
        if name == "ret":
            return self.give_back(number, values[0])
        if name in ("je", "jl", "jg", "jz"):
            return self.compare(at, line, frame, {"je": "equal", "jz": "equal", "jl": "less", "jg": "more"}[name], (values + [(0, 0)])[:2], (sources + [None])[:2])
        if name in ("inc", "dec", "inc_chk", "dec_chk"):
            variable = self.named(frame, line.operands[0], values[0])
            step = 1 if name[0] == "i" else -1
            counted = computed("add", self.top(frame, variable), (step, step))
            self.give(frame, variable, counted, True)
            if len(values) == 1:
                return self.go_on(at, frame)
            if not 1 <= variable < 16:
                self.go_to(at, frame, line, True)
                return self.go_to(at, frame, line, False)
            return self.compare(at, line, frame, "more" if step > 0 else "less", [counted, values[1]], [variable, None])
        if name in ("store", "pull", "load"):
            if name == "load":
                variable = self.named(frame, line.operands[0], values[0])
                self.give(frame, line.result, self.top(frame, variable))
            else:
                given = values[1] if name == "store" else self.read(frame, 0)
                variable = self.named(frame, line.operands[0], values[0])
                self.give(frame, variable, given, True)
            return self.go_on(at, frame)
        if name == "push":
            self.give(frame, 0, values[0])
            return self.go_on(at, frame)
        if name == "random":
            least, greatest = values[0]
            self.give(frame, line.result, (1, greatest) if least > 0 else (0, 0) if greatest <= 0 else (0, greatest))
            return self.go_on(at, frame)
        if name == "call":
            return self.call(at, line, frame, values)
        if name in ("loadb", "loadw", "storeb", "storew"):
            return self.element(at, line, frame, values)
        if name in ("get_parent", "get_child", "test_attr", "set_attr", "print_obj", "get_prop", "insert_obj"):
            return self.object(at, line, frame, values)
        if name in ("div", "mod") and values[1][0] <= 0 <= values[1][1]:
            raise Broken
        self.give(frame, line.result, computed(name, *values))
        return self.go_on(at, frame)

    def compare(self, at, line, frame, question, values, sources):
        for answer in (True, False):
            left = narrowed(question, answer, *values)
            if left is None:
                continue
            behind = frame.copy()
            kept = [meet(behind.locals[source - 1], more) if source else more for source, more in zip(sources, left)]
            if sources[0] and sources[0] == sources[1]:
                kept = [kept[0] and kept[1] and meet(*kept)] * 2
            if None in kept:
                continue
            for source, more in zip(sources, kept):
                if source:
                    behind.locals[source - 1] = more
            self.go_to(at, behind, line, answer)

    def element(self, at, line, frame, values):
        width = 2 if line.name[-1] == "w" else 1
        first, last = values[0][0] + values[1][0] * width, values[0][1] + values[1][1] * width
        if last - first > 70000:
            raise Broken
        places = [it % 65536 for it in range(first, last + width)]
        if line.name[0] == "l":
            if any(it >= len(self.made.file) for it in places):
                raise Broken
            given = (0, 255) if width == 1 else ANY
            if width == 1 and all(it >= self.made.static for it in places):
                loaded = [self.made.file[it] for it in places]
                given = (min(loaded), max(loaded))
            self.give(frame, line.result, given)
        else:
            if not all(0x220 <= it < self.made.static or it in (0x10, 0x11) for it in places):
                raise Broken
            self.written.update(places)
        return self.go_on(at, frame)

    def object(self, at, line, frame, values):
        name = line.name
        self.within(values[0], 1, 2)
        if name in ("test_attr", "set_attr"):
            self.within(values[1], 0, 31)
        if name == "insert_obj":
            self.within(values[1], 1, 2)
        if name == "get_parent":
            self.give(frame, line.result, (0, 2))
        if name == "get_prop":
            self.give(frame, line.result, ANY)
        if name == "get_child":
            for answer, given in ((True, (1, 2)), (False, (0, 0))):
                behind = frame.copy()
                self.give(behind, line.result, given)
                self.go_to(at, behind, line, answer)
            return None
        if name == "test_attr":
            self.go_to(at, frame, line, True)
            return self.go_to(at, frame, line, False)
        return self.go_on(at, frame)

    def call(self, at, line, frame, values):
        least, greatest = values[0]
        if greatest - least > 100:
            raise Broken
        given = None
        for word in range(least, greatest + 1):
            if word == 0:
                given = hull(given, (0, 0))
                continue
            callee = self.made.number_of.get(word % 65536)
            if callee is None:
                raise Broken
            initial = self.made.routines[callee].initial
            sets = [hull(values[k + 1] if k + 1 < len(values) else (it, it), self.entries.get((callee, k))) for k, it in enumerate(initial)]
            self.entered.add(callee)
            self.reach((callee, 0), Frame(callee, sets, []))
            given = hull(given, self.results.get(callee))
        if given is not None:
            self.give(frame, line.result, given)
            self.go_on(at, frame)

    def unreturned(self):
        return sorted(it for it in self.entered if it not in self.results)

    def spelled(self, change=None):
        """The certificate, where sets may be changed by a function of what they are of."""
        change = change or (lambda of, it: it)
        made = self.made
        numbers = {it: index + 1 for index, it in enumerate(sorted(self.entered))}
        numbers[0] = 0
        pack = lambda sets: b"".join(struct.pack(">hh", *it) for it in sets)
        addresses, inside, stacks = [], {}, {}
        for (number, index), frame in sorted(self.known.items(), key=lambda it: made.places[it[0][0]][it[0][1]]):
            place = made.places[number][index]
            addresses.append(place)
            inside[place] = (numbers[number], pack(change((place, k), it) for k, it in enumerate(frame.locals)))
            stacks[place] = pack(change((place, -1 - k), it) for k, it in enumerate(frame.slots))
        return certificate(
            made.file, addresses, stacks=stacks, inside=inside,
            routines=[(made.heads[it], len(made.routines[it].initial), change(("result", it), self.results.get(it, (0, 0)))) for it in sorted(self.entered)],
            own={it: change(("global", it), kept) for it, kept in self.globals.items()},
        )


def choices_of_sets(made, draw):
    """What globals and the locals of routines may have beside what comes of the code: nothing more, one set of the grid, or several."""
    keys = [(number, k) for number, routine in enumerate(made.routines) for k in range(len(routine.initial))]
    yield {}, {}
    singles = [({number: it}, {}) for number in (16, 17) for it in GRID] + [({}, {key: it}) for key in keys for it in GRID]
    draw.shuffle(singles)
    for one in singles:
        yield one
        yield {number: draw.choice(GRID) for number in (16, 17) if draw.random() < 0.5}, {key: draw.choice(GRID) for key in keys if draw.random() < 0.4}


def walks(made, draw, global_sets, entries):
    """Walks with sets of the grid for what the routines give that never return."""
    choices, rounds = [{}], 0
    while choices and rounds < 2 * len(GRID):
        chosen = choices.pop(0)
        rounds += 1
        walk = Walk(made, chosen, global_sets, entries)
        missing = walk.unreturned()
        if not missing:
            yield walk
            continue
        more = [{**chosen, **dict(zip(missing, picked))} for picked in itertools.islice(itertools.product(GRID, repeat=len(missing)), len(GRID) ** 2)]
        draw.shuffle(more)
        choices += more


def certificates(made, draw, most):
    """Certificates that may pass, at most so many: of each walk the one with the least sets first, and then some with more here and there."""
    told = set()
    for global_sets, entries in choices_of_sets(made, draw):
        for walk in walks(made, draw, global_sets, entries):
            for rate in (0, draw.choice([0.1, 0.3, 1.0])):
                spelling = walk.spelled(lambda of, it: hull(it, draw.choice(GRID)) if draw.random() < rate else it)
                if spelling not in told:
                    told.add(spelling)
                    yield spelling
                if len(told) >= most:
                    return


def grid_certificates(made, draw, most):
    """Certificates that list all of the code, with any sets of the grid: nothing here depends on the walk but the heights, which are 0."""
    keys = []
    for number, routine in enumerate(made.routines):
        keys += [(number, k) for k in range(len(routine.initial))]
    for _ in range(most):
        sets = {key: draw.choice(GRID) for key in keys}
        listed = [number for number in range(len(made.routines)) if number == 0 or draw.random() < 0.8]
        numbers = {it: index for index, it in enumerate(listed)}
        addresses, inside = [], {}
        for number in listed:
            for place in made.places[number][:-1]:
                addresses.append(place)
                inside[place] = (numbers[number], b"".join(struct.pack(">hh", *sets[number, k]) for k in range(len(made.routines[number].initial))))
        yield certificate(
            made.file, addresses, inside=inside,
            routines=[(made.heads[it], len(made.routines[it].initial), draw.choice(GRID)) for it in listed if it],
            own={it: hull((0, 0), draw.choice(GRID)) for it in (16, 17)},
        )


# ---- certificates of lists

class Pieces:
    """The parts of a certificate of version 1, taken from its front and put down as parts of one of version 2."""

    def __init__(self, file, draw, rate):
        self.file, self.at, self.draw, self.rate = file, 5, draw, rate
        self.parts = [b"ZPCC\x02"]

    def take(self, form):
        """A part that is spelled alike in both."""
        length = struct.calcsize(form)
        here = self.file[self.at : self.at + length]
        self.at += length
        self.parts.append(here)
        return struct.unpack(form, here)

    def take_sets(self, count):
        for _ in range(count):
            least, greatest = struct.unpack_from(">hh", self.file, self.at)
            self.at += 4
            self.parts.append(self.set_within(least, greatest))

    def set_within(self, least, greatest):
        """The interval, or both its ends with some of the words between them."""
        if greatest - least < 2 or self.draw.random() >= self.rate:
            return b"\0" + struct.pack(">hh", least, greatest)
        inner = {self.draw.randint(least + 1, greatest - 1) for _ in range(self.draw.choice([0, 0, 1, 2, 4]))}
        words = sorted({least, greatest} | inner)
        if len(words) == greatest - least + 1:
            words.remove(least + 1)
        return b"\x01" + bytes([len(words)]) + struct.pack(f">{len(words)}h", *words)


def with_lists(file, draw, rate):
    """A certificate of version 1 as one of version 2, in which sets are lists at this rate."""
    pieces = Pieces(file, draw, rate)
    pieces.take(">H6s2sI")
    for _ in range(pieces.take(">H")[0]):
        pieces.take(">HH")
    pieces.take_sets(240)
    local_counts = [0]
    for _ in range(pieces.take(">H")[0]):
        local_counts.append(pieces.take(">IB")[1])
        pieces.take_sets(1)
    for _ in range(pieces.take(">I")[0]):
        _, routine, height = pieces.take(">IHB")
        pieces.take_sets(local_counts[routine] + height)
    return b"".join(pieces.parts)


def of_both_kinds(files, draw):
    """Each certificate, and behind it one of lists that it becomes."""
    for file in files:
        yield file
        yield with_lists(file, draw, draw.choice([0, 0.2, 1.0]))


# ---- runs

def run_in(room, path, *words):
    ran = subprocess.run([path, *words], cwd=room, stdin=subprocess.DEVNULL, capture_output=True, timeout=300)
    return ran.returncode, ran.stdout, ran.stderr


def put(room, name, contents):
    with open(os.path.join(room, name), "wb") as file:
        file.write(contents)


def is_accepted(room, path, name, marks=b""):
    return run_in(room, path, "check", "story", name)[1] == b"accepted" + marks + b"\n"


def judged(case):
    """A story, what is said of it, how many certificates were tried, and the first that was accepted; of one that is found, that which isn't."""
    path, seed, most = case
    draw = random.Random(seed)
    made = drawn_story(draw)
    with tempfile.TemporaryDirectory(prefix="zpc-") as room:
        put(room, "story", made.file)
        status, output, errors = run_in(room, path, "find", "story", "found")
        told = FOUND.fullmatch(output)
        if told and not is_accepted(room, path, "found", told[1] or b""):
            return made, "found", 1, b"found"
        if output != b"found\n":
            status, output, errors = run_in(room, path, "find", "--strict", "story", "unmarked")
        if output == b"found\n":
            return made, "found", 1, b"found" if told and told[1] else None
        lines = errors.decode().splitlines()
        said = lines[1] if len(lines) > 1 else f"status {status}"
        tries = of_both_kinds(itertools.chain(certificates(made, draw, most), grid_certificates(made, draw, most // 4)), draw)
        tried = 0
        for it in tries:
            put(room, "certificate", it)
            tried += 1
            if is_accepted(room, path, "certificate"):
                return made, said, tried, it
    return made, said, tried, None


def main():
    path = os.path.realpath(sys.argv[1])
    stories, seed, most = (int(it) for it in [*sys.argv[2:], *["200", "1", "24"][len(sys.argv) - 2 :]])
    count = Count("falsified")
    told = {}
    for number, (made, said, tried, accepted) in enumerate(side_by_side(judged, [(path, f"{seed}-{it}", most) for it in range(stories)])):
        kind = "no certificate" if said.startswith("no certificate: ") else said
        kinds = told.setdefault(kind, [0, 0, 0])
        kinds[0] += 1
        kinds[1] += tried
        if kind == "found":
            count.see(accepted is None, f"story {seed}-{number}: what was found isn't accepted: {made.file[made.begin:].hex()}")
        elif kind == "no certificate":
            count.see(accepted is None, f"story {seed}-{number} with {made.file[made.begin:].hex()}: {said}; accepted is {(accepted or b'').hex()}")
        elif accepted is not None:
            kinds[2] += 1
    for kind, (many, tried, passed) in sorted(told.items()):
        also = f", of {passed} one is accepted" if passed else ""
        print(f"{kind}: {many} stories, {tried} certificates{also}")
    count.end()


if __name__ == "__main__":
    main()
