#!/usr/bin/env python3
"""Names the definitions that no computed value reaches, by their names alone.

    unreached.py [CRATE ..]

A definition that is changed together with its code goes through every proof, so a value has to refuse that; pairs.py says which does. A
definition that no value names, nor anything that a value names, can't be refused by any. Here they are named for each file of specs/, in
a moment and with nothing built. Not each needs a value: docs/HUNT.md says which are held by something else. It runs at the top of the
repository, and no gate runs it.
"""
import os
import re
import sys

# The modules of a crate's proofs that compute values.
VALUES = re.compile(r"(?:Worked|Standard|Instances|Sample)\w*")
USE = re.compile(r"(?:pub )?use Rattle\.(\w+)\.(specs|proofs)\.([\w.]+?)(?:\.\{(.*)\}| as (\w+))$")
# The first line of a definition: its name, in front of its type.
BEGINS = re.compile(r"( *)(?:abbrev |unfoldable )?(?:pub )?(?:(?:record|data) )?(?!module |record \{|mod )([^\s:(){}]+)(?: [({].*?)? : ")
WORD = re.compile(r"[^\s(){}\[\],;:.]+")


class Module:
    """A file of definitions or proofs: whence its names are, and the words of each definition."""

    def __init__(self, text):
        self.imports, self.words = {}, {}
        name, depth = None, 0
        for line in text.splitlines():
            use = USE.match(line)
            if use:
                self.imports.update(imported(use))
            if use or not line.strip() or line.lstrip().startswith(("--", "use ")):
                continue
            indent = len(line) - len(line.lstrip(" "))
            begins = BEGINS.match(line)
            if begins and (name is None or indent <= depth):
                name, depth = begins[2], indent
            elif line.lstrip().startswith("module "):
                name = None
            if name:
                self.words.setdefault(name, set()).update(WORD.findall(line))


def imported(use):
    """The names that a line imports: each with the module that it is of, and its name there; none for a module under another name."""
    home = use[1], use[2], use[3]
    if use[5]:
        return {use[5]: (home, None)}
    pairs = [it.partition(" as ") for it in use[4].split(", ")]
    return {(new or old): (home, old) for old, _, new in pairs}


def modules_of(root):
    """All files of definitions and of proofs that aren't a function's."""
    found = {}
    for crate in sorted(os.listdir(root)):
        for part in ("specs", "proofs"):
            top = f"{root}/{crate}/{part}"
            for at, _, names in os.walk(top):
                names = names if part == "specs" or at == top else []
                for name in (it for it in names if it.endswith(".antt") and it != "Lib.antt"):
                    with open(f"{at}/{name}", encoding="utf-8") as file:
                        path = os.path.relpath(f"{at}/{name}", top)[: -len(".antt")].replace("/", ".")
                        found[crate, part, path] = Module(file.read())
    return found


def named_by(modules, home, words):
    """The definitions that these words of a module name."""
    module = modules[home]
    for word in words:
        for name in (word, f"◌{word}◌"):
            if name in module.words:
                yield home, name
            other, old = module.imports.get(name, (None, None))
            if other in modules:
                yield from ((other, it) for it in ([old] if old else words & modules[other].words.keys()))


def reached_from(modules, homes):
    """The definitions of these modules, and all that is named by them."""
    reached, found = set(), {(home, name) for home in homes for name in modules[home].words}
    while found:
        reached |= found
        found = {it for home, name in found for it in named_by(modules, home, modules[home].words.get(name, set()))} - reached
    return reached


def main():
    modules = modules_of("crates")
    reached = reached_from(modules, [it for it in modules if it[1] == "proofs" and VALUES.fullmatch(it[2])])
    unreached = defined = 0
    for home in sorted(it for it in modules if it[1] == "specs" and (it[0] in sys.argv[1:] or not sys.argv[1:])):
        names = [name for name in modules[home].words if (home, name) not in reached]
        unreached, defined = unreached + len(names), defined + len(modules[home].words)
        if names:
            print(f"{home[0]} {home[2]}: {', '.join(names)}")
    print(f"unreached: {unreached} of {defined} definitions")


if __name__ == "__main__":
    main()
