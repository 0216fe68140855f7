#!/usr/bin/env python3
"""The index of what is proved: the README.md of each crate, with the public calls that it has clauses of.

    proved.py           writes docs/PROVED.md
    proved.py --check   fails where it differs, with a line for each difference
"""
import difflib
import os
import re
import sys

from definitions import TOP, text_of

DOCUMENT = "docs/PROVED.md"

HEAD = """# What is proved

Each crate's README.md says what the crate does, has its public calls with their clauses, and says what isn't proved of it. A call ensures its clauses
on every input that meets its `requires` (most have none); each call is safe and returns. It is proved over the logic whose sum `rt version` gives as
`dac8208d650f15bf`. The headline, which these clauses carry, is in README.md. How it is proved is in docs/PROOF.md.

That a call takes no memory is said where its answer has no want of memory. That, and how often bytes are gone over, is read off the code:
no clause says it.

`tests/proved.py` writes this index, and the gate fails where it differs.

| Crate | What it is about | Calls | Clauses |
|---|---|---|---|
"""


def crates():
    """Each crate, in the order of ARCHITECTURE's rows."""
    return re.findall(r"(?m)^\| (z\w+) \|", text_of("docs/ARCHITECTURE.md"))


def rows_of(text):
    """The rows of a README's tables: the calls of each, and its clauses."""
    rows = re.findall(r"(?m)^\|([^|]*)\|([^|]*)\|", text)
    return [it for it in rows if "`" in it[0] + it[1]]


def counts(text):
    """How many calls a README names, and how many clauses. A call whose clauses have no name has one each."""
    calls = clauses = 0
    for named, told in rows_of(text):
        its = len(re.findall(r"`[^`]+`", named))
        calls += its
        clauses += len(re.findall(r"`\w+`", told)) or its
    return calls, clauses


def index():
    """The document."""
    lines = [HEAD]
    total_calls = total_clauses = 0
    for crate in crates():
        text = text_of(f"crates/{crate}/README.md")
        title = text.partition("\n")[0].partition(": ")[2]
        calls, clauses = counts(text)
        total_calls, total_clauses = total_calls + calls, total_clauses + clauses
        lines.append(f"| [{crate}](../crates/{crate}/README.md) | {title} | {calls or ''} | {clauses or ''} |\n")
    lines.append(f"| all | | {total_calls} | {total_clauses} |\n")
    return "".join(lines)


def differences():
    """The lines in which the document differs from what is written."""
    old, new = text_of(DOCUMENT).splitlines(), index().splitlines()
    return [it for it in difflib.unified_diff(old, new, DOCUMENT, "proved.py", lineterm="", n=0)]


def main():
    if sys.argv[1:] == ["--check"]:
        found = differences()
        print("\n".join(found))
        return 1 if found else 0
    with open(os.path.join(TOP, DOCUMENT), "w", encoding="utf-8") as out:
        out.write(index())
    return 0


if __name__ == "__main__":
    sys.exit(main())
