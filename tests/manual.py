#!/usr/bin/env python3
"""The manual page, made of what the program says for --help.

    manual.py                      writes docs/zpc.1 of the texts in tests/program/help, which stored runs hold the program to, and the source from
                                   which the program has the same page
    manual.py --check [PROGRAM]    fails where one differs from what these texts give, or those that PROGRAM prints, with a line for each difference

Only what help doesn't say stands here: FILES, what a code is, and the standards.
"""
import difflib
import os
import re
import subprocess
import sys

from definitions import TOP, text_of

DOCUMENT = "docs/zpc.1"
SOURCE = "crates/zexplain/src/manual.rt"
SIGNS = {"\\": "\\e", "-": "\\-", "'": "\\(aq", '"': "\\(dq", "`": "\\(ga", "^": "\\(ha", "~": "\\(ti"}

CODES = "What is refused, a fault and a failure are told on the errors by a code, as refused: I4 at 00329. zpc explain says what each means."

FILES = [
    ("story.z3", "A story file of version 3."),
    (
        "story.cert",
        "The certificate that is beside story.z3: .cert stands in the place of .z3 or .Z3, and behind a name that ends in neither. It is bound to "
        "its story by release, serial number, checksum and length.",
    ),
    (
        "my.qzl",
        "A save of the Quetzal standard, in the file that --save names. It is written as my.qzl.part first and takes its name once it is on the "
        "disk, so that an end at any moment leaves the old save.",
    ),
    ("gameinfo.dbg", "What Inform 6 writes of a story's source with -k, in the file that --debug names."),
]

BESIDE = "The Z-Machine Standards Document 1.1; Quetzal: Z-machine Common Save-File Format Standard 1.4."


class Help:
    """A text of help: what it is about, how the command is used, its sections of rows or lines, and its paragraphs."""

    def __init__(self, text):
        first, *blocks = re.split(r"\n\n+", text.rstrip("\n"))
        self.about, self.usage, self.sections, self.paragraphs = first, "", {}, []
        for block in blocks:
            head, _, body = block.partition("\n")
            if head.startswith("Usage: "):
                self.usage = head.removeprefix("Usage: ")
            elif re.fullmatch(r"[A-Z][\w ]*:", head) and body.startswith("  "):
                self.sections[head[:-1]] = body
            else:
                self.paragraphs.append(" ".join(block.split()))

    def rows(self, name):
        """A section's rows: what is named, and what is said of it. A line that begins far in goes on with what is said."""
        found = []
        for line in self.sections.get(name, "").split("\n"):
            row = re.fullmatch(r" {2,6}(\S+(?: \S+)*)(?: {2,}(\S.*))?", line)
            if row:
                found.append([row[1], row[2] or ""])
            elif line.strip():
                found[-1][1] = f"{found[-1][1]} {line.strip()}".strip()
        return found

    def examples(self):
        return [line.strip() for name in ("Example", "Examples") for line in self.sections.get(name, "").split("\n") if line]


def stored(*words):
    return text_of(f"tests/program/help/{words[0] if words else 'zpc'}.txt")


def printed(program):
    """The texts of a built program."""
    return lambda *words: subprocess.run([program, *words, "--help"], stdout=subprocess.PIPE, text=True, check=True).stdout


def commands(text_of_help):
    """Each command, with its help, or with nothing where that is `help`, which has no text of its own."""
    for name, about in Help(text_of_help()).rows("Commands"):
        yield name, about, None if name == "help" else Help(text_of_help(name))


def plain(text):
    """A text as roff has it."""
    return "".join(SIGNS.get(sign, sign) for sign in text)


def line_of(text):
    """A line of text, which is no request however it begins."""
    return ("\\&" if text.startswith((".", "'")) else "") + plain(text)


def used(words):
    """How a command is used: what stands for something else in italics, all else in bold."""
    parts = re.split(r"(<\w+>|\[\w+\]|\.\.\.| +)", words)
    made = []
    for part in parts:
        name = part.strip("<>[]")
        if part.startswith("<"):
            made.append(f"\\fI{plain(name)}\\fR")
        elif part.startswith("["):
            made.append(f"[\\fI{plain(name)}\\fR]")
        elif part == "...":
            made.append("\\&...")
        elif part.strip():
            made.append(f"\\fB{plain(part)}\\fR")
        else:
            made.append(part)
    return "".join(made)


def terms(rows):
    for left, right in rows:
        yield from (".TP", used(left), line_of(right))


def literal(lines):
    yield from (".PP", ".nf", ".RS")
    yield from (line_of(line) for line in lines)
    yield from (".RE", ".fi")


def page(text_of_help, version):
    whole, parts = Help(text_of_help()), list(commands(text_of_help))
    lines = ['.\\" tests/manual.py writes this page of what the program says for --help.', f'.TH ZPC 1 "" "zpc {version}" "User Commands"']
    lines += [".SH NAME", f"zpc \\- {plain(whole.about[0].lower() + whole.about[1:])}", ".SH SYNOPSIS", ".nf"]
    lines += [used(its.usage if its else f"zpc {name} [COMMAND]") for name, _, its in parts]
    lines += [".fi", ".SH DESCRIPTION"]
    for paragraph in whole.paragraphs:
        lines += [".PP", line_of(paragraph)]
    lines += [".SH COMMANDS"]
    for name, about, its in parts:
        lines += [f".SS zpc {plain(name)}", line_of(f"{about}.")]
        for paragraph in its.paragraphs if its else []:
            lines += [".PP", line_of(paragraph)]
        for section in its.sections if its else []:
            if section not in ("Example", "Examples"):
                lines += terms(its.rows(section))
    lines += [".SH OPTIONS", *terms(whole.rows("Options")), ".SH EXIT STATUS", *terms(whole.rows("Exit status")), ".PP", line_of(CODES)]
    lines += [".SH FILES", *terms(FILES), ".SH EXAMPLES"]
    for its in [*(its for _, _, its in parts if its), whole]:
        lines += literal(its.examples())
    return "\n".join([*lines, ".SH SEE ALSO", line_of(BESIDE)]) + "\n"


def written():
    version = re.search(r'(?m)^const VERSION: &str = "([^"]+)";', text_of("crates/zcommand/src/commands.rt"))[1]
    return page(stored, version)


def source(page):
    """The source that has the page."""
    said = page.replace("\\", "\\\\").replace('"', '\\"')
    return f"""//! The manual page. tests/manual.py writes this file: docs/zpc.1 is the same page.

/// The manual page, in the language of roff, as `zpc help man` prints it.
pub const MANUAL: &str =
    "{said}";
"""


def files_of(page):
    """What is written of a page, with where."""
    return [(DOCUMENT, page), (SOURCE, source(page))]


def differences(page):
    """The lines in which the document, or the source, differs from a page."""
    found = []
    for path, text in files_of(page):
        old = text_of(path).splitlines() if os.path.exists(os.path.join(TOP, path)) else []
        found += difflib.unified_diff(old, text.splitlines(), path, "manual.py", lineterm="", n=0)
    return found


def unseen():
    """The commands whose stored help no stored run compares with the program's."""
    runs = text_of("tests/program/runs.py")
    return [name for name, _, its in commands(stored) if its and f'["{name}", "--help"], done(help_text("{name}.txt"))' not in runs]


def main():
    if sys.argv[1:2] == ["--check"]:
        if sys.argv[2:]:
            version = subprocess.run([sys.argv[2], "--version"], stdout=subprocess.PIPE, text=True, check=True).stdout.strip().removeprefix("zpc ")
            found = differences(page(printed(sys.argv[2]), version))
        else:
            found = differences(written())
        print("\n".join(found), end="\n" if found else "")
        return 1 if found else 0
    for path, text in files_of(written()):
        with open(os.path.join(TOP, path), "w", encoding="utf-8") as out:
            out.write(text)
    return 0


if __name__ == "__main__":
    sys.exit(main())
