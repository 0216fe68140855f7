"""Copies of stories, certificates and saves that are spoiled in some place."""
import struct

import certificates
from instructions import Listing
from intervals import ALL
from sets import SMALL, is_list, numbers_of, packed
from saves import chunk, chunks_of
from stories import Refused, Story, word_at


def bytes_of(draw, file, others):
    """The file with some bytes changed, cut off, or with a part of another."""
    way, made = draw.random(), bytearray(file)
    if way < 0.1:
        return bytes(made[: draw.randint(0, len(made))])
    if way < 0.2:
        other = draw.choice(others)
        at, size = draw.randrange(len(made)), draw.randint(1, 64)
        return bytes(made[:at] + other[at : at + size] + made[at + size :])
    if way < 0.25:
        return bytes(made) + bytes(draw.randint(0, 255) for _ in range(draw.randint(1, 9)))
    for _ in range(draw.choice([1, 1, 1, 2, 4])):
        change(draw, made, draw.randrange(draw.choice([64, len(made), len(made)])))
    return bytes(made)


def change(draw, made, at):
    made[at] = draw.choice([draw.randint(0, 255), made[at] ^ 1 << draw.randint(0, 7), 0, 255, max(made[at], 1) - 1, min(made[at], 254) + 1])


def code_of(draw, file, certificate=None):
    """The story with a byte changed of an instruction that it or a certificate lists, or a byte of a table."""
    made = bytearray(file)
    try:
        places = sorted(certificate.instructions if certificate else Listing(Story(file)).found)
    except Refused:
        places = []
    for _ in range(draw.choice([1, 1, 2])):
        at = draw.choice(places) + draw.randint(0, 4) if places and draw.random() < 0.7 else draw.randrange(64, len(made))
        if 0 <= at < len(made):
            change(draw, made, at)
    return bytes(made)


def raw_of(draw, file):
    """The story with any bytes as its code, of which some are often met."""
    begin = min(word_at(file, 0x06), len(file))
    often = [0x0D, 0x41, 0x54, 0x8C, 0x95, 0xA0, 0xB2, 0xBA, 0xC1, 0xE0, 0xE6, 0xE8, 0xFF, 0x57, 0x1F]
    begin += draw.choice([0, 0, 2, 3])
    return file[:begin] + bytes(draw.choice([draw.choice(often), draw.randint(0, 255), draw.randint(0, 255)]) for _ in range(len(file) - begin))


def tables_of(draw, file):
    """The story with a byte changed of its objects and what stands behind them, or a word of its header."""
    made = bytearray(file)
    if draw.random() < 0.3 and word_at(made, 0x0A) + 62 + 9 * 6 < len(made):
        first, second = (word_at(made, 0x0A) + 62 + 9 * draw.randint(0, 4) + 7 for _ in range(2))
        made[first : first + 2] = struct.pack(">H", (word_at(made, second) + draw.choice([0, *range(-2, 13)])) % 65536)
        return bytes(made)
    if draw.random() < 0.6:
        begin, static = word_at(made, 0x0A), word_at(made, 0x0E)
        if begin + 62 < static <= len(made):
            change(draw, made, draw.randrange(begin + (62 if draw.random() < 0.9 else 0), min(static, begin + 400)))
            return bytes(made)
    return header_of(draw, file)


def dictionary_of(draw, file):
    """The story with a byte changed of its dictionary."""
    made = bytearray(file)
    begin = word_at(made, 0x08)
    if begin < len(made):
        change(draw, made, min(begin + draw.randint(0, 30), len(made) - 1))
    return bytes(made)


def header_of(draw, file):
    """The story with another word in its header that names a place."""
    made = bytearray(file)
    at = draw.choice([0x06, 0x08, 0x0A, 0x0C, 0x0E, 0x18, 0x18, 0x1A])
    other = word_at(made, draw.choice([0x06, 0x08, 0x0A, 0x0C, 0x0E, 0x18]))
    near = word_at(made, at) + draw.choice([-2, -1, 1, 2, 9])
    static = word_at(made, 0x0E)
    edge = draw.choice([62, 63, 64, 65, static - 480, static - 479, static - 62, static - 61, static - 1, len(made), len(made) // 2 + 1])
    value = draw.choice([other, near, draw.randint(64, len(made)), other + draw.randint(0, 500), edge])
    made[at : at + 2] = struct.pack(">H", value % 65536)
    return bytes(made)


# ---- certificates


def set_of(draw, some, lists):
    """Another set: wider, narrower, or any; a list too, where the version has them."""
    return list_of(draw, some) if lists and draw.random() < 0.6 else interval_of(draw, some)


def list_of(draw, some):
    """A set with one number more, or one less, or with a gap, or some few numbers."""
    numbers = list(numbers_of(some) or range(some[0], some[0] + 9))
    way = draw.random()
    if way < 0.4 and len(numbers) > 2:
        numbers.pop(draw.randrange(len(numbers)))
    elif way < 0.8:
        numbers.append(draw.choice([some[0] - 2, some[1] + 2, some[0] - 1, some[1] + 1, 0, 1, draw.randint(-32768, 32767)]))
    else:
        numbers = [draw.randint(-3, 300) for _ in range(draw.randint(2, 9))]
    numbers = sorted({it for it in numbers if ALL[0] <= it <= ALL[1]})[:SMALL]
    return packed(numbers) if numbers else ALL


def interval_of(draw, interval):
    """Another interval: wider, narrower, or any."""
    lower, upper = interval
    changes = [ALL, (lower - 1, upper), (lower, upper + 1), (lower + 1, upper), (lower, upper - 1), (lower, 32767), (-32768, upper), (0, 255), (0, 0)]
    changed = draw.choice(changes)
    return changed if ALL[0] <= changed[0] <= changed[1] <= ALL[1] else ALL


def narrower(draw, interval):
    """The set without one of its ends, or of a list without one of its numbers, where it has two."""
    lower, upper = interval
    if lower == upper:
        return interval
    if is_list(interval):
        return packed(draw.sample(interval.numbers, len(interval.numbers) - 1))
    return draw.choice([(lower + 1, upper), (lower, upper - 1)])


def one_narrower(draw, made):
    """Makes one interval narrower, of those that have several numbers."""
    lists = [it for _, values, slots in made.instructions.values() for it in (values, slots)] + [made.globals]
    fit = [(several, at) for several in lists for at, it in enumerate(several) if ALL != it and it[0] < it[1]]
    routines = [at for at, (_, _, result) in enumerate(made.routines) if result[0] < result[1]]
    if fit and draw.random() < 0.9:
        several, at = draw.choice(fit)
        several[at] = narrower(draw, several[at])
    elif routines:
        at = draw.choice(routines)
        address, count, result = made.routines[at]
        made.routines[at] = (address, count, narrower(draw, result))


def one_interval(draw, made):
    """Changes an interval of a local or a slot."""
    fit = [it for it, (_, values, slots) in made.instructions.items() if values or slots]
    if fit:
        number, values, slots = made.instructions[draw.choice(fit)]
        several = values if values and (not slots or draw.random() < 0.7) else slots
        at = draw.randrange(len(several))
        several[at] = set_of(draw, several[at], made.has_lists)


def one_global(draw, made):
    used = [it for it, value in enumerate(made.globals) if value[0] != value[1]] + list(range(9))
    at = draw.choice(used)
    made.globals[at] = set_of(draw, made.globals[at], made.has_lists)


def one_place(draw, made):
    """Leaves an instruction out, gives it another routine, or another height."""
    if not made.instructions:
        return
    place = draw.choice(sorted(made.instructions))
    number, values, slots = made.instructions.pop(place)
    way = draw.random()
    if way < 0.3:
        slots = slots + [(0, 0)] if draw.random() < 0.6 else slots[:-1]
    elif way < 0.5:
        number = draw.randint(0, len(made.routines))
        values = ([*values, *[ALL] * 15])[: made.routines[number - 1][1] if number else 0]
    elif way < 0.7:
        place = draw.choice([place - 1, place + 1, place + 2, 131070, 131071, 131072])
    if way < 0.7:
        made.instructions[place] = (number, values, slots)


def one_range(draw, made):
    """Leaves a frozen range out, or adds one."""
    if made.ranges and draw.random() < 0.5:
        made.ranges.remove(draw.choice(made.ranges))
        return
    first = draw.randint(0x220, 0x360) if draw.random() < 0.9 else draw.randint(0, 2000)
    last = first + draw.randint(0, 3)
    if draw.random() < 0.8:
        made.ranges = [it for it in made.ranges if it[1] < first - 1 or it[0] > last + 1]
    else:
        made.ranges.append(draw.choice([(last + 1, last + 3), (first, last), (last + 2, last + 2), (last + 3, last + 2)]))
    made.ranges.append((first, last))
    made.ranges.sort()


def one_routine(draw, made):
    if made.routines:
        at = draw.randrange(len(made.routines))
        address, count, result = made.routines[at]
        if draw.random() < 0.8:
            made.routines[at] = (address, count, set_of(draw, result, made.has_lists))
        elif draw.random() < 0.5:
            made.routines[at] = (address + draw.choice([1, 2]), count, result)
        else:
            made.routines.pop(at)


def all_wide(draw, made):
    """Makes many intervals as wide as they come."""
    rate = draw.choice([0.1, 0.5, 1])
    wide = lambda values: [ALL if draw.random() < rate else it for it in values]
    for place, (number, values, slots) in made.instructions.items():
        made.instructions[place] = (number, wide(values), wide(slots))
    made.globals[1:] = wide(made.globals[1:])
    made.routines = [(at, count, ALL if draw.random() < rate else result) for at, count, result in made.routines]


def one_mark(draw, made):
    """Marks an instruction that isn't marked, or leaves a mark out."""
    if made.instructions:
        made.marks ^= {draw.choice(sorted(made.marks) if made.marks and draw.random() < 0.5 else sorted(made.instructions))}


def one_fact(draw, made):
    """Leaves a fact out, changes it, has it at another place, or states one more."""
    way, stated = draw.random(), [(place, number) for place, several in made.facts.items() for number in several]
    place, number = draw.choice(stated) if stated else (draw.choice(sorted(made.instructions)), draw.randrange(240))
    some = made.facts.get(place, {}).pop(number, made.globals[number])
    if way < 0.2:
        return
    if way < 0.6:
        place = draw.choice(sorted(made.instructions))
    made.facts.setdefault(place, {})[number] = set_of(draw, some, True) if draw.random() < 0.8 else some


def many_marks(draw, made):
    """Marks all instructions, some, or none."""
    rate = draw.choice([0, 0.05, 0.3, 1, 1])
    made.marks = {it for it in made.instructions if draw.random() < rate}


CHANGES = [one_narrower] * 9 + [one_interval] * 4 + [one_global] * 3 + [one_place] * 3 + [one_range] * 2 + [one_routine] * 3 + [all_wide] * 2


def certificate_of(draw, file):
    """The certificate with one thing changed, or two, that it still spells one."""
    made = certificates.read(file)
    for _ in range(draw.choice([1, 1, 1, 2])):
        draw.choice(CHANGES)(draw, made)
    if made.has_lists and draw.random() < 0.1:
        misspell(draw, made)
    if made.names_limit and draw.random() < 0.1:
        made.version = draw.choice([3, 4, 5])
    if made.has_facts and made.instructions and draw.random() < 0.5:
        one_fact(draw, made)
    if draw.random() < (0.3 if made.has_marks else 0.05):
        draw.choice([one_mark, one_mark, many_marks])(draw, made)
    if made.names_limit and draw.random() < 0.2:
        made.limit = draw.choice([0, 1, 2, 3, 4095, 4096, 4097, 65535])
    return spelled(made)


# Sets that none has: of another kind, a list of one word and of 65, words that don't rise, a list that is an interval, and one of two kinds at once.
MISSPELLED = [
    b"\2\0\0\0\5",
    b"\1\1\0\5",
    b"\1\x41" + struct.pack(">65h", *range(0, 130, 2)),
    b"\1\2\0\5\0\5",
    b"\1\3\0\5\0\6\0\7",
    b"\1\2\0\6\0\5",
    b"\0\0\5\0\4",
    b"\xff\2\0\5\0\7",
]


def misspell(draw, made):
    """Spells a set of a global or of an instruction as none is spelled."""
    several = [it for _, values, slots in made.instructions.values() for it in (values, slots) if it] + [made.globals]
    chosen = draw.choice(several)
    chosen[draw.randrange(len(chosen))] = draw.choice(MISSPELLED)


def spelled(made):
    """The file of a certificate. A mark is spelled in each version, though those before the fourth have none."""
    spell = spelled_set if made.has_lists else spelled_interval
    limit = struct.pack(">H", made.limit) if made.names_limit else b""
    parts = [b"ZPCC", bytes([made.version]), made.header, struct.pack(">I", made.length), limit, struct.pack(">H", len(made.ranges))]
    parts += [struct.pack(">HH", *it) for it in made.ranges] + [spell(it) for it in made.globals]
    parts.append(struct.pack(">H", len(made.routines)))
    parts += [struct.pack(">IB", at, count) + spell(result) for at, count, result in made.routines]
    parts.append(struct.pack(">I", len(made.instructions)))
    for place, (number, values, slots) in sorted(made.instructions.items()):
        parts.append(struct.pack(">IHB", place, number, len(slots) | certificates.MARK * (place in made.marks)))
        parts += [spell(it) for it in values + slots]
    if made.has_facts:
        facts = [(place, *it) for place, stated in sorted(made.facts.items()) for it in sorted(stated.items())]
        parts.append(struct.pack(">I", len(facts)))
        parts += [struct.pack(">IB", place, number) + spell(some) for place, number, some in facts]
    return b"".join(parts)


def spelled_interval(some):
    return struct.pack(">hh", *some)


def spelled_set(some):
    if isinstance(some, bytes):
        return some
    if not is_list(some):
        return b"\0" + spelled_interval(some)
    return struct.pack(f">BB{len(some.numbers)}h", 1, len(some.numbers), *some.numbers)


# ---- saves


def save_of(draw, save):
    """The save with a byte or a chunk changed; it still begins with FORM."""
    chunks = chunks_of(save)
    way = draw.random()
    if way < 0.1:
        return joined([(name, full_stacks(draw, data) if name == b"Stks" else data) for name, data in chunks])
    if way < 0.3:
        made = bytearray(save)
        change(draw, made, draw.choice([draw.randrange(4, len(made)), draw.randrange(8, 40), len(made) - draw.randint(1, 20)]))
        return bytes(made)
    if way < 0.4:
        return save[: draw.randint(4, len(save))] if draw.random() < 0.7 else save + bytes(draw.randint(1, 3))
    if way < 0.8:
        at = draw.randrange(len(chunks))
        chunks[at] = (chunks[at][0], spoiled_data(draw, chunks[at][1]))
        return joined(chunks)
    return joined(other_chunks(draw, chunks))


def full_stacks(draw, data):
    """Stacks that are full or nearly so, or as many frames as may stand."""
    if draw.random() < 0.3:
        height = draw.choice([65533, 65534, 65535])
        return bytes(6) + struct.pack(">H", height) + bytes(2 * height)
    first = data[: 8 + 2 * (data[6] * 256 + data[7])]
    return first + draw.choice([bytes(8), b"\0\0\0\x02\x10\x01\0\0\0\x07\0\x07"]) * draw.choice([1, 1, 3, 4, 1023, 1024, 1025, 4095, 4096, 4097])


def spoiled_data(draw, data):
    made = bytearray(data)
    if len(made) > 64 and draw.random() < 0.3:
        change(draw, made, draw.choice([0x10, 0x11, 0x11, draw.randrange(64)]))  # of the header Flags 2 alone is the save's
        return bytes(made)
    if made and draw.random() < 0.8:
        change(draw, made, draw.randrange(len(made)))
        return bytes(made)
    return bytes(made[: draw.randint(0, len(made))]) if draw.random() < 0.5 else bytes(made) + bytes(draw.choice([1, 2, 8, 8 * 4097]))


def other_chunks(draw, chunks):
    """Chunks left out, twice, in another order, or of another kind."""
    way, at = draw.random(), draw.randrange(len(chunks))
    if way < 0.2:
        return chunks[:at] + chunks[at + 1 :]
    if way < 0.4:
        return chunks + [chunks[at]]
    if way < 0.6:
        return draw.sample(chunks, len(chunks))
    if way < 0.7:
        return [(b"CMem" if name == b"UMem" else name, data) for name, data in chunks]
    extra = (draw.choice([b"AUTH", b"CMem", b"IntD", b"UMem"]), bytes(draw.randint(0, 3)))
    return chunks[:at] + [extra] + chunks[at + (way > 0.8) :]


def joined(chunks):
    body = b"IFZS" + b"".join(chunk(*it) for it in chunks)
    return b"FORM" + struct.pack(">I", len(body)) + body
