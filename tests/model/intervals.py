"""Intervals of signed numbers, and what is known after an instruction, as docs/CERTIFICATE.md has it: results, and what a branch tells. Of
lists all of this is asked by their ends, but where each two numbers are worked out."""
import itertools

from operations import SUMS
from sets import has, numbers_of, packed
from stories import signed

ALL = (-32768, 32767)
BYTE = (0, 255)


def fitting(lower, upper):
    return (lower, upper) if ALL[0] <= lower and upper <= ALL[1] else ALL


def single(word):
    return signed(word), signed(word)


def is_single(interval):
    return interval[0] == interval[1]


def meet(a, b):
    """What both have, or None."""
    lower, upper = max(a[0], b[0]), min(a[1], b[1])
    return (lower, upper) if lower <= upper else None


def hull(numbers):
    found = list(numbers)
    return (min(found), max(found)) if found else ALL


def without(interval, number):
    """The interval without a number that is an end of it, or None where nothing is left."""
    lower, upper = interval
    if lower == number:
        lower += 1
    elif upper == number:
        upper -= 1
    return (lower, upper) if lower <= upper else None


# ---- results


def quotient(a, b):
    return (abs(a) // abs(b)) * (1 if (a < 0) == (b < 0) else -1)


def ends(of, a, b):
    found = [of(x, y) for x in a for y in b]
    return fitting(min(found), max(found))


def remainder(a, b):
    if has(b, 0):
        return ALL
    most = max(abs(b[0]), abs(b[1])) - 1
    return meet((-most, most), (min(a[0], 0), max(a[1], 0)))


def conjunction(a, b):
    if is_single(a) and is_single(b):
        return single((a[0] & b[0]) % 65536)
    uppers = [it[1] for it in (a, b) if it[0] >= 0]
    return (0, min(uppers)) if uppers else ALL


def disjunction(a, b):
    if is_single(a) and is_single(b):
        return single((a[0] | b[0]) % 65536)
    return (0, 32767) if a[0] >= 0 and b[0] >= 0 else ALL


def drawn(a):
    """The interval of `random`."""
    if a[0] > 0:
        return 1, a[1]
    return (0, a[1]) if a[1] > 0 else (0, 0)


RESULTS = {
    "add": lambda a, b: fitting(a[0] + b[0], a[1] + b[1]),
    "sub": lambda a, b: fitting(a[0] - b[1], a[1] - b[0]),
    "mul": lambda a, b: ends(lambda x, y: x * y, a, b),
    "div": lambda a, b: ALL if has(b, 0) else ends(quotient, a, b),
    "mod": remainder,
    "not": lambda a: (-1 - a[1], -1 - a[0]),
    "and": conjunction,
    "or": disjunction,
    "random": drawn,
    "inc": lambda a: fitting(a[0] + 1, a[1] + 1),
    "dec": lambda a: fitting(a[0] - 1, a[1] - 1),
    "get_next_prop": lambda a, b: (0, 31),
    "get_prop_len": lambda a: (0, 8),
}


# What is worked out word by word, where sets are small.
EACH = {**SUMS, "not": lambda a: 65535 - a, "inc": lambda a: a + 1, "dec": lambda a: a - 1}


def by_ends(some):
    return some[0], some[1]


def worked_out(lists, name, values):
    """The set of what an operation makes of sets."""
    numbers = [numbers_of(it) for it in values]
    if lists and name in EACH and None not in numbers:
        each = [it for it in itertools.product(*numbers) if name not in ("div", "mod") or it[1]]
        return packed(signed(EACH[name](*(n % 65536 for n in it)) % 65536) for it in each) if each else ALL
    return RESULTS[name](*map(by_ends, values))


# ---- what a branch tells: what is left of each value where the condition holds, and where it fails; None where nothing is


def less(a, b, holds):
    """What `jl` tells of two values."""
    if holds:
        return [meet(a, (-32769, b[1] - 1)), meet(b, (a[0] + 1, 32768))]
    return [meet(a, (b[0], 32768)), meet(b, (-32769, a[1]))]


def equal(a, b, holds):
    if holds:
        return [meet(a, b), meet(a, b)]
    return [without(a, b[0]) if is_single(b) else a, without(b, a[0]) if is_single(a) else b]


def told(name, values, holds):
    """What is left of the intervals that a branch compares."""
    if name == "jz":
        return [meet(values[0], (0, 0)) if holds else without(values[0], 0)]
    if name == "je" and len(values) == 2:
        return equal(*values, holds)
    if name == "jl":
        return less(*values, holds)
    if name == "jg":
        return less(values[1], values[0], holds)[::-1]
    return values
