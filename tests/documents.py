#!/usr/bin/env python3
"""Holds the documents against the repository: what they name is there, and what is there is named.

    documents.py
"""
import os
import re
import sys

import believe
import manual
import proved
from definitions import TOP, text_of


def files(pattern):
    """The repository's files whose paths are of this form. What is made, in out/, isn't among them."""
    found = []
    for at, folders, names in os.walk(TOP):
        folders[:] = sorted(it for it in folders if it not in ("out", ".git", "__pycache__"))
        found += [os.path.relpath(os.path.join(at, name), TOP) for name in names]
    return [it for it in found if re.search(pattern, it)]


def crates():
    return re.findall(r"(?m)^(\w+):", text_of("crates.txt"))


def wrong_bugs():
    """Each must-fail edit says in its first line what the mistake is, which is its name, at which function of its crate it is refused, and by
    what."""
    sources = {crate: "".join(text_of(it) for it in files(rf"^crates/{crate}/src/.*\.rt$")) for crate in crates()}
    for path in files(r"^crates/\w+/edits/\w+\.edit$"):
        name = os.path.basename(path)[: -len(".edit")]
        told = re.fullmatch(r"# (.+): refused at (.*`\w+(?:::\w+)*`.*) by (.+)", text_of(path).partition("\n")[0])
        if not told or told[1].replace("`", "").replace(" ", "_") != name:
            yield f"{path}: its first line doesn't say what the mistake is and what refuses it"
            continue
        for place in re.findall(r"`(?:\w+::)*(\w+)`", told[2]):
            if not re.search(rf"\b(?:fn|const|struct|enum|trait) {place}\b", sources[path.split("/")[1]]):
                yield f"{path}: it names {place}, which isn't there"


def wrong_clauses():
    """Each crate has a README.md, which says what is proved of it and what isn't, but of tests; the clauses and calls that it names stand in its
    sources, and docs/PROVED.md is their index."""
    for crate in crates():
        path = f"crates/{crate}/README.md"
        if not os.path.exists(os.path.join(TOP, path)):
            yield f"{path} isn't there"
            continue
        for heading in () if f"crates/{crate}" in crates_of_tests() else ("## What is proved", "## What isn't"):
            if f"\n{heading}\n" not in text_of(path):
                yield f"{path} has no part {heading[3:]}"
        sources = "".join(text_of(path) for path in files(rf"^crates/{crate}/src/.*\.rt$"))
        for call, clauses in proved.rows_of(text_of(path)):
            for clause in re.findall(r"`(\w+)`", clauses):
                if not re.search(rf"ensures\*? {clause} ", sources) and not re.search(rf"ghost {clause}\b", sources):
                    yield f"{path}: there is no clause {clause} of {call.strip()}"
            for name in re.findall(r"`(?:\w+::)*(\w+)[`(]", call):
                if name not in sources:
                    yield f"{path}: there is no {name}"
        for name in public_functions(crate, sources):
            if not re.search(rf"\b{name}\b", text_of(path)):
                yield f"{path} has no row of {name}"
    for line in proved.differences():
        yield f"PROVED: {line}"


def public_functions(crate, sources):
    """The functions of a library that it hands out. Methods aren't asked for: accessors have a row in common."""
    library = f"crates/{crate}/src/lib.rt"
    handed = re.findall(r"(?m)^pub use [\w:]+::(?:\{([^}]*)\}|(\w+));", text_of(library)) if os.path.exists(os.path.join(TOP, library)) else []
    names = {it.strip() for several, one in handed for it in (several or one).split(",")}
    return [it for it in re.findall(r"(?m)^pub (?:const )?fn (\w+)", sources) if it in names]


def wrong_crates():
    """docs/ARCHITECTURE.md has a row for each crate, and for nothing else, and says how many there are."""
    rows = re.findall(r"(?m)^\| (z\w+) \|", text_of("docs/ARCHITECTURE.md"))
    for crate in sorted(set(rows) ^ set(crates())):
        yield f"ARCHITECTURE: {crate} {'has a row and is no crate' if crate in rows else 'is a crate and has no row'}"
    if f"zpc is {len(crates())} crates" not in text_of("docs/ARCHITECTURE.md"):
        yield f"ARCHITECTURE doesn't say that there are {len(crates())} crates"


def wrong_names():
    """The files that documents name are there."""
    for path in files(r"\.md$"):
        for name in re.findall(r"`?\b((?:docs|tests|benches|crates)/[\w./]+\.(?:md|py|sh|rt|antt|c))\b", text_of(path)):
            if not os.path.exists(os.path.join(TOP, name)):
                yield f"{path} names {name}, which isn't there"


def explained():
    """The codes that zexplain explains, each with its text, in the order of the sources."""
    for path in files(r"^crates/zexplain/src/\w+\.rt$"):
        for code, text in re.findall(r'\(\s*"([A-Z]\d+)",\s*"((?:[^"\\]|\\.)*)",?\s*\)', text_of(path)):
            yield code, text.replace('\\"', '"')


def families(codes):
    """The codes as `L1 to L12`, for each letter."""
    numbers = {}
    for code in codes:
        numbers.setdefault(code[0], []).append(int(code[1:]))
    for letter, its in numbers.items():
        if sorted(its) == list(range(1, len(its) + 1)):
            yield f"{letter}1 to {letter}{len(its)}"


def wrong_codes():
    """Each code that the documents name is explained, and each that is explained is in a document."""
    texts = list(explained())
    codes = {code for code, _ in texts}
    if len(codes) != len(texts):
        yield "zexplain: a code is explained twice"
    for code, text in texts:
        if not re.fullmatch(rf"{code}: [^\n]+\.\nRule: (?s:.+)\nDo: (?s:.+)\n", text):
            yield f"zexplain: the text of {code} isn't its meaning, its rule and what can be done"
    letters = "".join(sorted({code[0] for code in codes}))
    named = {}
    for path in [*files(r"^(docs|crates/\w+)/\w+\.md$"), "README.md"]:
        if path != "docs/HUNT.md":
            for code in re.findall(rf"\b[{letters}][1-9]\d?\b", text_of(path)):
                named.setdefault(code, path)
    for code in sorted(codes ^ set(named)):
        yield f"{named[code]} names {code}, which isn't explained" if code in named else f"{code} is explained, and in no document"
    said = text_of("crates/zperform/src/message.rt")
    for family in families(code for code, _ in texts):
        if family not in said:
            yield f"zperform: {family} aren't said where there is no such code"


def wrong_authors():
    """docs/AUTHORS.md names the stories of tests/authors, with the rules that tests/program/authors.py has, or none where a certificate
    of lists is found."""
    told = set(re.findall(r"(?m)^\| [^|]+ \| (\w+) \| (I\d+|none: lists) \|$", text_of("docs/AUTHORS.md")))
    forms = re.findall(r'(?m)^    \("(\w+)", (?:"(I\d+)"|None), b"', text_of("tests/program/authors.py"))
    tried = {(name, rule or "none: lists") for name, rule in forms}
    for name, rule in sorted(told ^ tried):
        yield f"AUTHORS: {name} with {rule} is {'told and not tried' if (name, rule) in told else 'tried and not told'}"
    stories = {re.sub(r"_(before|after)\.(inf|z3)$", "", os.path.basename(path)) for path in files(r"^tests/authors/")}
    for name in sorted(stories ^ {name for name, _ in tried}):
        yield f"AUTHORS: {name} is a story or a form, and not both"


def wrong_tested():
    """docs/TESTED.md: each sentence names the test that it is of, and the gate runs that."""
    body = text_of("docs/TESTED.md")
    ran = text_of("tests/run")
    for sentence in re.split(r"(?<=\.)\s+(?=[A-Z`])|\n- ", body.partition("\n- ")[2].strip()):
        told = re.findall(r"\b(?:tests/[\w/]+(?:\.(?:py|sh))?|crates/\w+)", sentence)
        if not told:
            yield f"TESTED: no test is named: {' '.join(sentence.split())}"
        for path in told:
            if not (path in crates_of_tests() or path in ran or any(path in it for it in files_of_run(ran))):
                yield f"TESTED names {path}, which the gate doesn't run"


def crates_of_tests():
    """The crates that are tests alone; `rt ci` runs them."""
    return {"crates/ztests", "crates/zcalls"}


def files_of_run(ran):
    """The folders of the scripts that the gate runs, and the files of stored runs, which runs.py reads."""
    scripts = set(re.findall(r"tests/[\w/]+\.(?:py|sh)", ran))
    stored = {f"tests/program/{name}.py" for name in re.findall(r"(?m)^from (\w+) import see_", text_of("tests/program/runs.py"))}
    return scripts | stored | {os.path.dirname(it) for it in scripts}


def wrong_edits():
    """Each must-fail edit replaces something, and each text that it replaces stands once in its file, after those that it replaced before."""
    for path in files(r"^crates/\w+/edits/\w+\.edit$"):
        source, old, replaced = "", "", 0
        for line in text_of(path).split("\n"):
            key, _, text = line.partition(": ")
            if key == "file":
                source = text_of(os.path.join(path.split("/edits/")[0], text))
            elif key == "old":
                old = text
                if source.count(old) != 1:
                    yield f"{path}: its text is {source.count(old)} times in its file: {old}"
            elif line.startswith("new:"):
                source, replaced = source.replace(old, line[len("new:") :].removeprefix(" ")), replaced + 1
        if not replaced:
            yield f"{path}: it replaces nothing"


def wrong_belief():
    """docs/BELIEVE.md is what tests/believe.py writes."""
    for line in believe.differences():
        yield f"BELIEVE: {line}"


def wrong_manual():
    """docs/zpc.1 is what tests/manual.py writes of the stored texts of help, each of which a stored run compares with what the program says."""
    for line in manual.differences(manual.written()):
        yield f"manual: {line}"
    for name in manual.unseen():
        yield f"manual: no stored run of tests/program/runs.py compares the help of {name}"


def wrong_shape():
    if len(text_of("README.md").split("\n")) > 250:
        yield "README.md has over 250 lines"
    if text_of("HANDLES") != "Handles allowed: none.\n":
        yield "HANDLES has another line"
    for path in files(r"^crates/.*\.(rt|antt)$"):
        if text_of(path).count("\n") > 800:
            yield f"{path} has over 800 lines"


def main():
    passed = failed = 0
    asked = (
        wrong_bugs, wrong_clauses, wrong_crates, wrong_names, wrong_codes, wrong_authors, wrong_tested, wrong_edits, wrong_belief, wrong_manual,
        wrong_shape,
    )
    for check in asked:
        found = list(check())
        for line in found:
            print(f"documents: {line}")
        passed, failed = passed + (not found), failed + len(found)
    print(f"documents: {passed} passed, {failed} failed")
    return 1 if failed else 0


if __name__ == "__main__":
    sys.exit(main())
