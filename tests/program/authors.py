#!/usr/bin/env python3
"""The stories of docs/AUTHORS.md: of each form the one before it is mended has no certificate that marks nothing and states no facts, for the rule
that the document names, or one of lists alone, and the one after it has one of intervals, by which it plays as without it, and as the one before.

    authors.py PROGRAM

tests/authors has their sources in Inform 6 and the stories that its compiler makes of them.
"""
import os
import sys

from program import Count, Program, side_by_side

STORIES = os.path.join(os.path.dirname(os.path.abspath(__file__)), "..", "authors")

# the versions of certificates
INTERVALS, LISTS = 1, 2

# the forms of which the story before has a certificate with facts on globals, which marks nothing
STATED = {"read", "count", "nothing"}

# each form, the rule that no certificate of the story before keeps, if there is none, and what is typed
FORMS = [
    ("buffers", "I14", b"look at it\n"),
    ("read", "I14", b"look at it\n"),
    ("walk", "I5", b""),
    ("index", "I10", b""),
    ("divisor", "I8", b""),
    ("relation", "I9", b""),
    ("word", "I11", b"green\n"),
    ("property", "I5", b""),
    ("count", "I5", b""),
    ("nothing", "I5", b""),
    ("list", "I7", b""),
    ("variable", "I15", b""),
    ("kinds", "I11", b""),
    ("table", None, b""),
    ("texts", None, b""),
    ("things", None, b""),
]


def files_of(name):
    """The story of a name, as a file for a run."""
    with open(os.path.join(STORIES, f"{name}.z3"), "rb") as file:
        return {"story": file.read()}


class Form:
    """The runs of a form: what was wrong with them."""

    def __init__(self, program, name, rule, typed):
        self.program, self.name, self.rule, self.typed = program, name, rule, typed
        self.wrong = []

    def see(self, well, what):
        if not well:
            self.wrong.append(f"{self.name}: {what}")

    def plays(self, files, *more):
        """What is played with three seeds."""
        return [self.program.run(["play", "--status", "--seed", seed, "story", *more], files, typed=self.typed) for seed in "123"]

    def before(self):
        if self.rule is None:
            return self.found("before", LISTS)
        files = files_of(f"{self.name}_before")
        answer = self.program.run(["find", "--strict", "story", "certificate"], files)
        lines = answer.errors.decode().split("\n")
        self.see(answer.status == 1 and answer.output == b"" and len(lines) == 3 and lines[0].startswith("refused: G1"), f"before, find: {answer}")
        self.see(lines[1:2] != [] and lines[1].startswith(f"no certificate: {self.rule} at "), f"before, find, with no certificate for {self.rule}: {answer}")
        plain = self.plays(files)
        self.marked(files, plain)
        return plain

    def marked(self, files, plain):
        """With marks there is a certificate, or with facts one that needs none, and play by it is what it is without."""
        answer, certificate = self.program.found(files["story"])
        is_found = answer.output == b"found\n" if self.name in STATED else answer.output.startswith(b"found, marked: ")
        self.see(answer.status == 0 and is_found and answer.errors == b"", f"before, find with marks: {answer}")
        if certificate is None:
            self.see(False, "before, find with marks: no certificate was written")
            return
        files = {**files, "certificate": certificate}
        checked = self.program.run(["check", "story", "certificate"], files)
        self.see(checked.output == answer.output.replace(b"found", b"accepted"), f"before, check with marks: {checked}")
        marked = self.plays(files, "certificate")
        self.see(plain == marked, f"before, played without marks: {plain}; with them: {marked}")

    def found(self, when, version):
        """What is played of a story that has a certificate of this version."""
        files = files_of(f"{self.name}_{when}")
        answer, certificate = self.program.found(files["story"])
        self.see((answer.status, answer.output, answer.errors) == (0, b"found\n", b""), f"{when}, find: {answer}")
        if certificate is None:
            self.see(False, f"{when}, find: no certificate was written")
            return self.plays(files)
        self.see(certificate[4] == version, f"{when}, find: a certificate of version {certificate[4]}")
        files["certificate"] = certificate
        checked = self.program.run(["check", "story", "certificate"], files)
        self.see((checked.status, checked.output, checked.errors) == (0, b"accepted\n", b""), f"{when}, check: {checked}")
        plain, proved = self.plays(files), self.plays(files, "certificate")
        self.see(plain == proved, f"{when}, played without its certificate: {plain}; with it: {proved}")
        return plain

    def run(self):
        before, after = self.before(), self.found("after", INTERVALS)
        self.see(before == after, f"before: {before}; after: {after}")
        self.see(all(it.status == 0 for it in after) and any(it.output for it in after), f"after: {after}")
        return self.wrong


def main():
    count = Count("authors")
    program = Program(sys.argv[1])
    for (name, _, _), wrong in zip(FORMS, side_by_side(lambda it: Form(program, *it).run(), FORMS)):
        for line in wrong:
            print(f"authors: {line}", flush=True)
        count.see(not wrong, f"{name}: {len(wrong)} wrong")
    count.end()


if __name__ == "__main__":
    main()
