"""Sets of signed numbers. In version 1 of certificates each is an interval, a pair of its ends. In version 2 one may be a list: it is a pair of
its ends too, so that what is asked of intervals is asked of those from its least number to its greatest, and has its numbers beside."""

SMALL = 64


class Numbers(tuple):
    """A list: the numbers have a gap among them."""

    def __new__(cls, numbers):
        made = super().__new__(cls, (numbers[0], numbers[-1]))
        made.numbers = tuple(numbers)
        return made

    def __eq__(self, other):
        return isinstance(other, Numbers) and self.numbers == other.numbers

    def __ne__(self, other):
        return not self == other

    def __hash__(self):
        return hash(self.numbers)

    def __repr__(self):
        return repr(list(self.numbers))


def is_list(some):
    return isinstance(some, Numbers)


def numbers_of(some):
    """Its numbers, where it has at most 64, else None."""
    if is_list(some):
        return some.numbers
    return range(some[0], some[1] + 1) if some[1] - some[0] < SMALL else None


def within_ends(some, lower, upper):
    """Those of its numbers that lie there, in a form that can be gone over."""
    if is_list(some):
        return [it for it in some.numbers if lower <= it <= upper]
    return range(max(some[0], lower), min(some[1], upper) + 1)


def has(some, number):
    return some[0] <= number <= some[1] and (not is_list(some) or number in some.numbers)


def within(inner, outer):
    """Whether each number of one is of the other."""
    if not is_list(outer):
        return outer[0] <= inner[0] and inner[1] <= outer[1]
    numbers = numbers_of(inner)
    return numbers is not None and all(it in outer.numbers for it in numbers)


def packed(some):
    """The set of numbers that were worked out one by one."""
    numbers = sorted(set(some))
    if len(numbers) == numbers[-1] - numbers[0] + 1 or len(numbers) > SMALL:
        return numbers[0], numbers[-1]
    return Numbers(numbers)


def left_of(some, interval):
    """What a set has of an interval, or None."""
    if is_list(some):
        left = within_ends(some, *interval)
        return packed(left) if left else None
    lower, upper = max(some[0], interval[0]), min(some[1], interval[1])
    return (lower, upper) if lower <= upper else None


def both(a, b):
    """The numbers of either, as few as a set can have."""
    if numbers_of(a) is not None and numbers_of(b) is not None:
        return packed([*numbers_of(a), *numbers_of(b)])
    return min(a[0], b[0]), max(a[1], b[1])


def words_in(some):
    """The words of a set as sequences of places that rise."""
    if is_list(some):
        return [sorted(it % 65536 for it in some.numbers)]
    lower, upper = some
    if lower >= 0:
        return [range(lower, upper + 1)]
    if upper < 0:
        return [range(lower + 65536, upper + 65537)]
    return [range(0, upper + 1), range(lower + 65536, 65536)]
