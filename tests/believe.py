#!/usr/bin/env python3
"""What a reader must believe: the definitions on which the clauses of README's headline rest, as docs/BELIEVE.md lists them.

    believe.py             writes docs/BELIEVE.md
    believe.py --check     fails where it differs, with a line for each difference
    believe.py --why NAME  by what each definition is reached of which the path or the name has NAME
"""
import difflib
import functools
import os
import re
import sys
import textwrap

from definitions import BUILT_IN, TOP, Code, Item, Unknown, text_of
from definitions import bound, bounds, by_type, closed, code_of, defined, layers, members, models, names_in

DOCUMENT = "docs/BELIEVE.md"
CHECK = ["story", "certificate", "lists", "plays_safely", "never_faults", "plays_alike"]


# ---- what is reached


@functools.cache
def uses_of(item):
    """What an item's names stand for: definitions and declarations, or the path of a module of the toolchain."""
    binds, found, wrong = bound(item.code) | item.binds, [], set()
    for words in names_in(item.code):
        try:
            found += of_name(item, words, binds)
        except Unknown as name:
            wrong.add(str(name))
    types = re.sub(r"\"(\\.|[^\"\\])*\"|'\w+", "", item.types, flags=re.DOTALL)
    for name in re.findall(r"(?<![A-Z]::)(?<!\w)[A-Z]\w*", types):
        try:
            found.append(by_type(item.file, name))
        except Unknown:
            wrong.add(name)
    if item.kind in ("struct", "enum"):
        found += models(item)
    if wrong:
        raise Unknown(f"{item}: nothing declares {', '.join(sorted(wrong))}")
    return [it for it in found if it]


def of_name(item, words, binds):
    """What one name stands for. What is brought in or defined beside it counts, though a variable may have its name too."""
    head, *behind = words
    own = None if isinstance(item.file, Code) else item.file.items.get(head)
    path = item.scope.get(head)
    if own or path:
        yield own or defined([*path, *behind]) or ".".join(path[:-1][:4])
    elif head == "do":
        yield from of_name(item, [">>="], ())
    elif head in item.bounds:
        traits = [by_type(item.file, trait) for trait in item.bounds[head] if behind]
        found = [it for trait in traits if trait for it in members(trait, behind[0])]
        if behind and not found and None not in traits:
            raise Unknown(".".join(words))
        yield from found
    elif head not in binds and head not in BUILT_IN:
        if not isinstance(item.file, Code) or head[0].islower():
            raise Unknown(head)
        yield by_type(item.file, head)


def closure(roots, without=()):
    """All that is reached from some items, each with the item that it was first reached by."""
    reached, waiting = {root: None for root in roots}, list(roots)
    for item in waiting:
        for used in () if isinstance(item, str) else uses_of(item):
            if used not in reached and getattr(used, "kind", "") not in without:
                reached[used] = item
                waiting.append(used)
    return reached


# ---- where it begins


def call(crate, kind, name, clauses):
    """A public function with some of its clauses, or with all; what it requires, and what has no name, is always among them."""
    for file in code_of(crate):
        for begin, start, end in file.blocks(rf"[ >]{kind}\b") if kind else [(0, 0, len(file.text))]:
            found = re.search(rf"(?m)^( *)pub fn {name}\b", file.text[start:end])
            if found and " for " not in file.text[begin:start]:
                body = re.compile(rf"(?m)^{found[1]}\{{").search(file.text, start + found.start()).start()
                return contract(file, file.text[begin:start], start + found.start(), body, name, clauses)
    raise Unknown(f"{crate}::{name}")


def contract(file, head, begin, body, name, clauses):
    """What stands before a function's body, with these of its clauses, in the block of such a head."""
    parts = list(re.compile(r"(?m)^\s*(ensures|requires)\*? (\w*) ?(?=\{)").finditer(file.text, begin, body))
    until = parts[0].start() if parts else body
    text = head + file.text[begin:until].replace(f"fn {name}", "")
    item = Item(file, name, "call", file.lines(begin, until), "", text, re.findall(r"\b(\w+):", text))
    item.bounds, item.clauses = bounds(text), {part[2] for part in parts}
    for part in parts:
        if part[1] == "requires" or clauses is None or part[2] in ("", *clauses):
            end = closed(file.text, part.end())
            item.lines |= file.lines(part.end(), end)
            item.code += file.text[part.end() : end] + "\n"
    return item


def headline():
    """The calls of README's table of the headline, each with the clauses that it names there."""
    body = text_of("README.md").partition("\n## The headline\n")[2].partition("\n## ")[0]
    calls, named, last = [], [], []
    for cell, clauses, says in re.findall(r"(?m)^\|([^|]*)\|([^|]*)\|(.*)\|$", body)[2:]:
        last = [it.split("::") for it in re.findall(r"`([\w:]+)`", cell)] or last
        named = named if clauses.strip() == "the same" else (named if not cell.strip() else []) + re.findall(r"`(\w+)`", clauses)
        prefix = last[0][:-1]
        asked = [*named, *re.findall(r"\(`(\w+)`\)", says)]
        its = [call(prefix[0], prefix[1] if prefix[1:] else None, path[-1], asked) for path in last]
        for name in set(named) - {name for it in its for name in it.clauses}:
            raise Unknown(f"README: {cell} has no clause {name}")
        calls += its
    return calls


def starts():
    """What is asked: all that README's headline says, the program's one call, and the checker's."""
    perform, check = call("zperform", None, "perform", None), call("zcheck", None, "check", CHECK)
    return {"all": [*headline(), perform, check], "perform": [perform], "check": [check]}


# ---- the document


def lines_of(reached, kinds=None):
    """The lines that are reached of each file."""
    found = {}
    for item in reached:
        if not isinstance(item, str) and (not kinds or item.kind in kinds):
            found.setdefault(item.file.path, set()).update(item.lines)
    return found


def total(reached, kinds=None):
    return sum(len(lines) for lines in lines_of(reached, kinds).values())


def in_order(reached):
    """The files in the order in which to read them: lowest crate first, and in a crate what others rest on first."""
    below = {}
    for item in reached:
        if not isinstance(item, str):
            used = {it.file.path for it in uses_of(item) if not isinstance(it, str)}
            below.setdefault(item.file.path, set()).update(used)
    seen = []

    def visit(path, crate, under):
        if path in below and path not in seen and path not in under and path.split("/")[1] == crate:
            for other in sorted(below[path]):
                visit(other, crate, under | {path})
            seen.append(path)

    for crate in layers():
        for path in sorted(below):
            visit(path, crate, frozenset())
    return seen


def said(path):
    """A file's first comment, up to where its first sentence ends or tells more."""
    first = re.match(r"(?:(?:--|//!) ?.*\n)+", text_of(path))[0]
    return re.split(r"(?<=\.)\s|\s\(own\)|: ", re.sub(r"(?m)^(--|//!) ?", "", first).replace("\n", " "))[0].rstrip(". ")


HEAD = """# What a reader must believe

The toolchain checks proofs. What it can't check is that what is proved says what was meant: that has to be read. These are the lines to
read for the clauses of the headline (README.md) and for those of `perform`, which is all that the program does, or for `check` alone:

| Read for | Lines | Of these proofs | Of these by invariants alone |
|---|---|---|---|
{totals}

`python3 tests/believe.py` follows each name of these clauses, and each name of what it stands for, to its definition or to the declaration
of its type, and writes this document; the gate fails where it differs. A definition counts whole, with the comments right above it and
the head of the block that it stands in; a type with its ghost fields, and with what contracts see of it in its place (`impl Model`: the
value, the view, and the invariant, which holds of each value and is proved where one is made); a ghost item of a trait with what each impl
takes for it; a call with its signature, what it requires, and its clauses. Blank lines and `use` lines aren't counted.
`python3 tests/believe.py --why NAME` says by what a definition is reached.

The search ends at the toolchain's own definitions, of which these modules are used: {modules}.

## The files, in the order in which to read them

| File | For `perform` | For `check` | In all | Has |
|---|---|---|---|---|
{files}
"""

OF = {
    "perform": "`zperform::perform`, all its clauses",
    "check": "`zcheck::check`: `plays_safely`, `never_faults`, `plays_alike`, and what its answer is",
    "all": "the headline, and `perform`",
}


def document():
    begun = starts()
    reached = {name: closure(roots) for name, roots in begun.items()}
    counts = {name: lines_of(its) for name, its in reached.items()}
    totals, files = [], []
    for name, of in OF.items():
        lines, bare = total(reached[name]), total(closure(begun[name], ("invariant",)))
        totals.append(f"| {of} | {lines:,} | {total(reached[name], ['proof'])} | {lines - bare:,} |")
    for path in in_order(reached["all"]):
        each = " | ".join(str(len(counts[name].get(path, ())) or "") for name in OF)
        files.append(f"| {path} | {each} | {said(path)} |")
    modules = sorted({it for it in reached["all"] if isinstance(it, str)})
    text = HEAD.format(totals="\n".join(totals), files="\n".join(files), modules=", ".join(f"`{it}`" for it in modules))
    return re.sub(r"(?m)^The search ends.*$", lambda line: textwrap.fill(line[0], 140, break_long_words=False, break_on_hyphens=False), text)


def differences():
    """What the document has and shouldn't, and what it should have and hasn't; or the name that nothing declares."""
    try:
        lines = difflib.unified_diff(text_of(DOCUMENT).split("\n"), document().split("\n"), n=0, lineterm="")
        return [line for line in lines if not line.startswith(("---", "+++", "@@"))]
    except Unknown as name:
        return [str(name)]


def why(name):
    """How each definition is reached, from it down to a clause."""
    reached = closure(starts()["all"])
    for item in reached:
        if name in str(item):
            chain = [item]
            while reached[chain[-1]]:
                chain.append(reached[chain[-1]])
            print(" < ".join(str(it).removeprefix("crates/") for it in chain))


def main():
    if sys.argv[1:2] == ["--why"]:
        why(sys.argv[2])
    elif sys.argv[1:] == ["--check"]:
        found = differences()
        for line in found:
            print(f"{DOCUMENT}: {line}")
        return 1 if found else 0
    else:
        with open(os.path.join(TOP, DOCUMENT), "w", encoding="utf-8") as file:
            file.write(document())
    return 0


if __name__ == "__main__":
    sys.exit(main())
