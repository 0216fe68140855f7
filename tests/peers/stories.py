"""What is played: the stories of the repository, with lines that are given and lines that are drawn, and those of its stored runs."""
import itertools
import os
import random
import struct
import sys

TOP = os.path.join(os.path.dirname(os.path.abspath(__file__)), "../..")
sys.path[:0] = [os.path.join(TOP, "tests/program"), os.path.join(TOP, "benches")]

import arrays
import authors
import calls
import compiled
import lines
import objects
import plays
import properties
import texts
from program import Answer

MARKS = b"\n0123456789.,!?_#'\"/\\-:()"  # what stands in A2 from 7 on (Z 3.5.3)
ASIDE = (b"save", b"restor", b"quit", b"q", b"restar", b"wait", b"z")  # a file is asked for, the play ends, or a number is drawn
PLAIN = [it for it in range(33, 127) if it != ord("?")]  # jzip divides words there
ROUNDS = 20


class Play:
    """A story with the lines that are typed."""

    def __init__(self, name, story, lines=()):
        self.name, self.story, self.lines = name, story, list(lines)


def read(*path):
    with open(os.path.join(TOP, *path), "rb") as file:
        return file.read()


def typed(text):
    return text.split(b"\n")[:-1]


# the stories that ask for lines, how many letters and words they take of one, and lines that are given
BELL = "crates/zpc/data/bell.z3"
ASKING = {
    BELL: (59, 4, [
        typed(read("tests/program/bell.txt")),
        typed(b"help\nlook\nx hook\nTAKE HOOK.\ndrop the hook\nget hook\ninventory\nrestart\ni\nnorth\nn\nwest\nlower rope\n")
        + typed(b"foo bar\n\nscore\nquit\nyes\n"),
    ]),
    "crates/zpc/data/guess.z3": (19, 4, [typed(b"5\nup\n1\nquit\n")]),
    **{
        f"tests/authors/{name}_{when}.z3": (19, 1 if name == "word" else 2, [typed(lines)])
        for name, _, lines in authors.FORMS if lines for when in ("before", "after")
    },
}
# lines on which peers are known to differ, by what they have
ODD = {
    "more words than it takes": typed(b"take the hook now please\ndrop, the, hook, please\ninventory\nlook\n"),
    "more letters than it takes": [b"take hook " + b"a" * 110, b"look", b"inventory"],
    "a question mark": [b"look?", b"take? hook", b"inventory"],
    "what draws numbers": [b"wait"] * 30,
}
SILENT = ["crates/zpc/data/hello.z3", "crates/zcalls/data/story.z3"] + [
    f"tests/authors/{name}_{when}.z3" for name, _, lines in authors.FORMS if not lines for when in ("before", "after")
]


def stored(count, seed):
    """The stories of the files: the games and the guide's with given lines and with some that are drawn, and those of the benches."""
    for path, (letters, words, given) in ASKING.items():
        name, story = os.path.basename(path), read(path)
        for number, lines_given in enumerate(given, 1):
            yield Play(f"{name}, given lines {number}", story, lines_given)
        for number in range(1, count + 1):
            draw = random.Random(f"{seed} {name} {number}")
            yield Play(f"{name}, drawn lines {number}", story, drawn_lines(draw, Dictionary(story), letters, words))
    for what, odd in ODD.items():
        yield Play(f"bell.z3, {what}", read(BELL), odd)
    for path in SILENT:
        yield Play(os.path.basename(path), read(path))
    for name in compiled.NAMES:
        yield Play(f"{name}.z3 of the benches", compiled.made(name, ROUNDS))


class Dictionary:
    """A story's separators, and its words, as far as it has their letters (Z 13)."""

    def __init__(self, story):
        at = struct.unpack(">H", story[8:10])[0]
        self.separators = story[at + 1 : at + 1 + story[at]]
        at += 1 + story[at]
        size, many = story[at], struct.unpack(">H", story[at + 1 : at + 3])[0]
        entries = (struct.unpack(">HH", story[place : place + 4]) for place in range(at + 3, at + 3 + size * many, size))
        self.words = [it for it in map(spelled, entries) if it not in ASIDE] or [b"word"]

    def count(self, line):
        """How many words a line has (Z 13.6)."""
        for it in self.separators:
            line = line.replace(bytes([it]), b" ; ")
        return len(line.split())


def spelled(entry):
    """What six Z-characters spell, with a shift before each mark (Z 3.5)."""
    text, shifted = b"", False
    for it in (number >> shift & 31 for number in entry for shift in (10, 5, 0)):
        if it >= 6:
            text += MARKS[it - 7 : it - 6] if shifted else bytes([ord("a") + it - 6])
        shifted = it == 5
    return text


def drawn_lines(draw, dictionary, letters, most):
    """Forty lines, of which most have words of the dictionary, and none has more than the story takes: with as many letters jzip takes no end
    of the line."""
    made = (drawn_line(draw, dictionary.words) for _ in range(10000))
    fitting = (line for line in made if len(line) < letters and dictionary.count(line) <= most)
    return list(itertools.islice(fitting, 40))


def drawn_line(draw, words):
    pieces = [draw.choice(words) for _ in range(draw.choice([1, 1, 2, 2, 2, 3, 3, 4]))]
    odd = draw.random()
    if odd < 0.1:
        pieces.insert(draw.randrange(len(pieces) + 1), bytes(draw.choice(PLAIN) for _ in range(draw.randint(1, 8))))
    elif odd < 0.2:
        pieces.append(draw.choice([b".", b",", b"!", b" ", b"  x", b"zzz", b"-1", b"12"]))
    elif odd < 0.25:
        pieces = [it.upper() for it in pieces]
    elif odd < 0.3:
        pieces = []
    return draw.choice([b" ", b" ", b" ", b"  ", b", "]).join(pieces)


class Recorder:
    """Stands in the place of the program and of the count of the stored runs, and keeps what would have been played."""

    path = "/bin/true"

    def __init__(self, part):
        self.part, self.found, self.last = part, {}, None

    def run(self, words, files=None, *_, typed=b"", **__):
        self.last = (files["story"], typed) if words[:1] == ["play"] and "certificate" not in words else None
        return Answer(0, b"", b"")

    def is_answer(self, what, *_):
        if self.last and self.last not in self.found:
            self.found[self.last] = f"{self.part}: {what.removesuffix(', checked')}"

    def see(self, *_):
        pass


def made():
    """The stories of the stored runs, which are made from their bytes: a few instructions each."""
    parts = {
        "plays": plays.see_plays, "calls": calls.see_calls, "objects": objects.see_objects, "properties": properties.see_properties,
        "arrays": arrays.see_arrays, "texts": texts.see_texts, "lines": lines.see_lines,
    }
    for part, see in parts.items():
        recorder = Recorder(part)
        see(recorder, recorder)
        for (story, text), name in recorder.found.items():
            high = ", of over 32 KB in play" if story[14] >= 0x80 else ""
            yield Play(name + high, story, text.split(b"\n")[: text.count(b"\n")])
