"""The arms of a function's longest match, and the function with only some of them: what an edit of one arm leaves as it is needn't be
proved once more.

An arm that is left out calls `left_out`, which never returns: whatever comes after it is reached from the arms that stay, with what is
known there, as before. So each goal of the shorter function is one of the whole function.
"""
import os
import re

# What is no code: comments, texts and characters.
QUOTED = re.compile(r"""//[^\n]*|b?"(?:\\.|[^"\\])*"|b?'(?:\\[^']*|[^'\\])'""", re.S)
MATCH = re.compile(r"\bmatch\b")
# A pattern of one variant of an enum, which no other variant's takes.
VARIANT = re.compile(r"((?:Some\()*)((?:\w+::)+)([A-Z]\w*[a-z]\w*)\b")
# With fewer arms a match isn't cut.
LONG = 10

LEFT_OUT = """

/// Stands for what is left out of a match.
fn left_out() -> ! {
    unreachable!()
}
"""


class Arm:
    """Where an arm of a match stands, from the end of the one above to its own with the comma, and in it its body."""

    def __init__(self, start, pattern, begun, end, after):
        self.start, self.pattern, self.begun, self.end, self.after = start, pattern, begun, end, after


def blanked(text):
    """A text of the same length with nothing but code."""
    return QUOTED.sub(lambda it: " " * len(it[0]), text)


def closing(code, at):
    """Where the bracket that opens at a place is closed."""
    depth = 0
    for end in range(at, len(code)):
        depth += (code[end] in "([{") - (code[end] in ")]}")
        if not depth:
            return end
    return len(code)


def first_outside(code, pattern, at, end):
    """Where a pattern comes first outside all brackets that open behind a place."""
    while at < end:
        if re.compile(pattern).match(code, at):
            return at
        at = closing(code, at) + 1 if code[at] in "([{" else at + 1
    return end


def arms_of(code, at):
    """The arms of the match whose word ends at a place."""
    opened = first_outside(code, r"\{", at, len(code))
    end, arms = closing(code, opened), []
    at = opened + 1
    while code[at:end].strip():
        start, arrow = at, first_outside(code, "=>", at, end)
        begun = arrow + re.match(r"=>\s*", code[arrow:]).end()
        # a block ends its arm, with a comma or none
        is_block = code[begun] == "{" and not re.match(r"\s*[.?]", code[closing(code, begun) + 1 : end])
        last = closing(code, begun) + 1 if is_block else first_outside(code, ",", begun, end)
        at = last + 1 if code[last] == "," else last
        arms.append(Arm(start, code[start:arrow].strip(), begun, last, at))
    return arms


def longest(text):
    """The arms of the longest match of a body; none where none is long."""
    if re.search(r"""\br#*\"|'\w+:""", text):
        return []
    code = blanked(text)
    found = [arms_of(code, it.end()) for it in MATCH.finditer(code)]
    arms = max(found, key=len, default=[])
    return arms if len(arms) >= LONG else []


def arm_of(arms, at, old, new):
    """The number of the arm that a text stands in, where what another text changes of it stands in the arm's body."""
    first = len(os.path.commonprefix([old, new]))
    last = min(len(os.path.commonprefix([old[::-1], new[::-1]])), len(old) - first, len(new) - first)
    around = [number for number, it in enumerate(arms) if it.start <= at and at + len(old) <= it.after]
    return next((it for it in around if arms[it].begun <= at + first and at + len(old) - last <= arms[it].end), None)


def variants(pattern):
    """The variants that a pattern takes, where it shows that it takes no other."""
    found = [VARIANT.match(it.strip()) for it in pattern.split("|") if it.strip()]
    return {it.groups() for it in found} if all(found) else None


def is_apart(pattern, others):
    """Whether a pattern takes nothing that the others take."""
    own = variants(pattern)
    return bool(own) and all(it and not own & it and {each[:2] for each in it | own} == {next(iter(own))[:2]} for it in others)


def with_arms(text, kept):
    """A body with these arms alone of its longest match, by their numbers. Of another arm its pattern is left, where that may take what a kept one behind it
    takes; else nothing but a last arm for them all."""
    arms = longest(text)
    patterns = [variants(arms[it].pattern) for it in kept]
    made, is_short = "", False
    for number, arm in enumerate(arms):
        if number in kept:
            made += text[arm.start : arm.end] + ","
        elif number > max(kept) or is_apart(arm.pattern, patterns):
            is_short = True
        else:
            made += f"\n{arm.pattern} => left_out(),"
    made += "\n_ => left_out()," if is_short else ""
    return text[: arms[0].start] + made + text[arms[-1].after :]
