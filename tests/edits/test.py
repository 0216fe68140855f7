#!/usr/bin/env python3
"""Tests of judge.py, over a small crate whose edits it has to tell apart.

    test.py
"""
import os
import subprocess
import sys
import tempfile

HERE = os.path.dirname(os.path.abspath(__file__))
sys.path.insert(0, HERE)
import arms
import judge

LIBRARY = """//! A library for the tests of the judge.
#![tactic(auto)]

ghost use Rattle.std.specs.Prelude.{◌≡◌, ◌+◌, ◌*◌, ◌<◌, ◌≤◌};

/// The most that is counted.
const MOST: u32 = 20;

/// One more.
pub fn successor(n: u32) -> u32
    requires { n < 1000 }
    ensures { result ≡ n + 1 }
{
    n + 1
}

/// Two more.
pub fn after_next(n: u32) -> u32
    requires { n < 999 }
    ensures { result ≡ n + 2 }
{
    let first = successor(n);
    successor(first)
}

/// A number up to twenty.
pub fn small(n: u32) -> u32
    ensures { result ≤ 20 }
{
    if n < MOST { n } else { MOST }
}

/// Twice a number.
pub fn spread(n: u32) -> u32
    requires { n < 1000 }
    ensures { result ≡ 2 * n }
{
    let doubled = n + n;
    doubled
}

/// A count.
pub struct Count {
    pub number: u32,
}

/// A short number as a count.
impl From<u16> for Count {
    ghost from_gives = { λ n count. count.number ≡ n };

    fn from(n: u16) -> Count {
        Count { number: u32::from(n) }
    }
}

/// A byte as a count.
impl From<u8> for Count {
    ghost from_gives = { λ n count. count.number ≡ n };

    fn from(n: u8) -> Count {
        let number = u32::from(n);
        Count { number }
    }
}

/// What is done with a number.
#[derive(Clone, Copy)]
pub enum Deed {
    Keep,
    Raise,
    Double,
    Treble,
    Halve,
    Third,
    Clear,
    Least,
    Both(u32),
    Other(u32),
}

/// A number that no deed makes more than thrice as large, or than twenty.
pub fn done(deed: Deed, n: u32) -> u32
    requires { n < 1000 }
    ensures { result ≤ 3 * n + 20 }
{
    let first = match deed {
        Deed::Keep => n,
        Deed::Raise => successor(n),
        Deed::Double => n + n,
        Deed::Treble => n + n + n,
        Deed::Halve => n / 2,
        Deed::Third => n / 3,
        Deed::Clear => 0,
        Deed::Least => {
            let least = small(n);
            least
        }
        Deed::Both(m) => small(m),
        Deed::Other(other) => small(other),
    };
    first
}
"""

ANSWERS = """use Rattle.std.proofs.Common.{arith}
use Rattle.low.proofs.spread.Goals as goal

pub overflow_add-doubled : goal.overflow_add-doubled
overflow_add-doubled c = omega arith
"""

# The edits, each with whether it has to be counted as refused.
EDITS = {
    "one_more_forgotten": (True, [("    n + 1", "    n")]),
    "first_for_second": (True, [("    successor(first)", "    first")]),
    "most_is_one_more": (True, [("u32 = 20", "u32 = 21")]),
    # in two methods of one name, of one trait that is given two types
    "short_count_lost": (True, [("        Count { number: u32::from(n) }", "        Count { number: u32::from(n / 2) }")]),
    "byte_count_lost": (True, [("        Count { number }", "        Count { number: number / 2 }")]),
    "harmless_count": (False, [("        let number = u32::from(n);", "        let number = u32::from(n) + 0;")]),
    # proved as before, but beside the first one its callee isn't
    "harmless_caller": (False, [("    let first = successor(n);", "    let first = { successor(n) };")]),
    # proved as before, by a copy of the answer
    "spread_harmlessly": (False, [("    let doubled = n + n;", "    let doubled = n + (n);")]),
    # proved, but for an answer that names what is gone
    "name_gone": (False, [("let doubled = n + n;", "let twice = n + n;"), ("    doubled", "    twice")]),
    "most_is_one_less": (False, [("u32 = 20", "u32 = 19")]),
    # in an arm of a long match: it makes more, it makes no more than it may, and it rests on what the arms above leave
    "one_more_raised": (True, [("        Deed::Raise => successor(n),", "        Deed::Raise => successor(n) + 2000,")]),
    "other_unbounded": (True, [("=> small(other)", "=> other")]),
    # beside them, one of another arm's pattern
    "both_unbounded": (True, [("        Deed::Both(m) => small(m),", "        Deed::Both(many) => many,")]),
    "harmless_arm": (False, [("Deed::Halve => n / 2", "Deed::Halve => n")]),
    # no longer there, there twice, and no text that can be read
    "stale": (False, [("n + 7", "n")]),
    "there_twice": (False, [("successor", "small")]),
    "unreadable": (False, [("    doubled", "    doubled +")]),
    # each text has to be one line
    "old_over_two_lines": (False, [("    successor(first)\n}", "    first")]),
    "new_over_two_lines": (False, [("    n + 1", "    n\n    + 1")]),
}


def make(root):
    """The repository that is judged."""
    crate = os.path.join(root, "crates/low")
    files = {f"{crate}/src/lib.rt": LIBRARY, f"{crate}/proofs/spread/Answers.antt": ANSWERS, f"{root}/crates.txt": "low:\n"}
    for name, (_, pairs) in EDITS.items():
        files[f"{crate}/edits/{name}.edit"] = "file: src/lib.rt\n" + "".join(f"old: {old}\nnew: {new}\n" for old, new in pairs)
    for path, text in files.items():
        os.makedirs(os.path.dirname(path), exist_ok=True)
        with open(path, "w", encoding="utf-8") as file:
            file.write(text)
    subprocess.run(["git", "init", "--quiet", root], check=True)


def ran_judge(root, *words):
    """What the judge answers, with what it says of each edit that is left, or of each function."""
    ran = subprocess.run([sys.executable, os.path.join(HERE, "judge.py"), *words], cwd=root, capture_output=True, text=True)
    lines = [it[len("edit low/") :] for it in ran.stdout.split("\n") if it.startswith("edit low/")]
    return ran, dict(it.split(": ", 1) for it in lines)


def judged(root):
    """What the judge says of the edits that are left: for each whether it counts."""
    ran, said = ran_judge(root)
    told = {name: text.startswith("refused") for name, text in said.items()}
    last = ran.stdout.rstrip("\n").rpartition("\n")[2]
    well = sum(told.values())
    is_counted = last == f"edits: {well} passed, {len(told) - well} failed" and ran.returncode == (1 if well < len(told) else 0)
    return told, is_counted, ran.stdout + ran.stderr


# What is called in a method of `Own`, and in a function of a module `own`, with whether that calls itself.
CALLS = [
    ("self.same(n)", True, False),
    ("Self::same(self, n)", True, False),
    ("Own::same(self, n)", True, False),
    ("self.other.same(n)", False, False),
    ("Other::same(n)", False, False),
    ("same(n)", False, True),
    ("crate::own::same(n)", False, True),
    ("other::same(n)", False, False),
    ("self.same", False, False),
]


def calls_are_told():
    """Whether a function's calls of itself are told from those of what shares its name."""
    clause = "    ensures { result ≡ same n }\n"
    for called, as_method, as_function in CALLS:
        method = f"impl Own {{\n    fn same(&self, n: u8) -> u8\n    {clause}    {{\n        {called}\n    }}\n}}\n"
        function = f"fn same(n: u8) -> u8\n{clause}{{\n    {called}\n}}\n"
        for text, wanted in [(method, as_method), (function, as_function)]:
            if [it.is_single for it in judge.functions_of("src/own.rt", text)] != [wanted]:
                return False
    return True


def rests_on_the_unedited():
    """Whether an edit with arms left out counts only where what is left is proved without it."""
    edit = judge.Edit("some", None, [], {"own::same"})
    edit.arm, edit.number = 3, 1
    refused = "fn low::own::same_edited_1: no proof: `search` did not prove `returns`\nonly=2\n"
    answers = []
    calls = "it calls `own::other`, which is not proved"
    failed = f"no proof: expected answers in x; `search` did not prove `returns`; {calls}"
    for unedited in ["depends on a hole in `x`", "no holes", f"no proof: {calls}", "no proof: `search` did not prove `returns`", failed, "not proved"]:
        judge.planted = lambda *_: {}
        judge.check = lambda *_, said=f"fn low::own::same: {unedited}\n{refused}": (said, {})
        answers.append(judge.refused_together(None, [edit], None))
    return answers == [{"some"}, {"some"}, {"some"}, set(), set(), set()]


def unread_are_dropped():
    """Whether modules of proofs go that nothing reads of a copy, and what is read by a function, or behind that, stays."""
    files = {
        "src/lib.rt": "#[tactic(auto, using(crate::proofs::Named::is_so))]\nfn f() {}\n",
        "specs/Lib.antt": "",
        "proofs/Lib.antt": "pub mod Named\nmod Behind\nmod Asked\nmod Worked\n",
        "proofs/Named.antt": "use Rattle.low.proofs.Behind.{so}\n",
        "proofs/Behind.antt": "",
        "proofs/Asked.antt": "",
        "proofs/Worked.antt": "use Rattle.low.proofs.Named.{is_so}\nuse Rattle.low.proofs.Worked.{itself}\n",
        "proofs/f/Answers.antt": "use Rattle.low.proofs.Asked.{it}\n",
    }
    with tempfile.TemporaryDirectory(prefix="dropped-") as room:
        for path, text in files.items():
            os.makedirs(os.path.dirname(f"{room}/{path}"), exist_ok=True)
            with open(f"{room}/{path}", "w", encoding="utf-8") as file:
                file.write(text)
        judge.drop_unread("low", room)
        left = sorted(os.listdir(f"{room}/proofs"))
        with open(f"{room}/proofs/Lib.antt", encoding="utf-8") as file:
            listed = file.read()
    return (left, listed) == (["Asked.antt", "Behind.antt", "Lib.antt", "Named.antt", "f"], "pub mod Named\nmod Behind\nmod Asked\n")


def counts_are_told():
    """Whether a function has half the counts only in a crate that has been tried with them, and not where it needs all, in a twin as well."""
    crate = lambda name: type("Crate", (), {"name": name})
    halved = {"own": ("Own::same",)}
    judge.HALVED, kept = halved, judge.HALVED
    told = [judge.needs_all(crate(name), places) for name, places in [("own", {"other"}), ("own", {"other", "Own::same_edited_2"}), ("new", {"other"})]]
    judge.HALVED = kept
    return told == [False, True, True]


def arms_are_told():
    """Whether only an edit of an arm's body has an arm, and a pattern stays where it may take what the edited arm takes."""
    named = "".join(f"        Kind::Case{it}(n) => n + {it},\n" for it in "ABCDEFGHIJ")
    text = f"{{\n    match kind {{\n{named}    }}\n}}"
    found = arms.longest(text)
    arm = lambda old, new: arms.arm_of(found, text.find(old), old, new)
    numbers = "".join(f"        {it} => n + {it},\n" for it in range(10))
    counted = arms.with_arms(f"{{\n    match kind {{\n{numbers}        _ => n,\n    }}\n}}", {10})
    return (
        (arm("Kind::CaseC(n) => n + C", "Kind::CaseC(n) => n"), arm("match kind", "match other")) == (2, None)
        and (arm("CaseC(n) =>", "CaseC(_) =>"), arm("n + C,\n        Kind::CaseD(n) => n + D", "0, _ => 1")) == (None, None)
        and arms.with_arms(text, {2}).split() == "{ match kind { Kind::CaseC(n) => n + C, _ => left_out(), } }".split()
        and all(f"{it} => left_out()," in counted for it in range(10))
        and "_ => n," in counted
    )


def main():
    passed = failed = 0
    with tempfile.TemporaryDirectory(prefix="judged-") as root:
        make(root)
        # one that can't be read keeps those planted with it from being judged together, so it comes last
        os.rename(f"{root}/crates/low/edits/unreadable.edit", f"{root}/unreadable.edit")
        first, is_counted, said = judged(root)
        harmless, unplanted = ran_judge(root, "--harmless")
        wanted = {name: refused for name, (refused, _) in EDITS.items() if name != "unreadable"}
        for name in os.listdir(f"{root}/crates/low/edits"):
            if name != "one_more_forgotten.edit":
                os.remove(f"{root}/crates/low/edits/{name}")
        os.rename(f"{root}/unreadable.edit", f"{root}/crates/low/edits/unreadable.edit")
        second, is_counted_too, said_too = judged(root)
        for well, what in [
            (first == wanted, said),
            (is_counted, said),
            (harmless.returncode == 0 and unplanted.keys() >= {"successor", "after_next", "small", "spread"}, harmless.stdout),
            (second == {"one_more_forgotten": True, "unreadable": False}, said_too),
            (is_counted_too, said_too),
            (calls_are_told(), "a call is told wrongly"),
            (arms_are_told(), "an arm is told wrongly"),
            (counts_are_told(), "the counts of a search are told wrongly"),
            (unread_are_dropped(), "a module that is read is dropped, or one that isn't stays"),
            (rests_on_the_unedited(), "an edit counts though what is left isn't proved without it"),
        ]:
            passed, failed = passed + well, failed + (not well)
            if not well:
                print(what)
    print(f"judge: {passed} passed, {failed} failed")
    return 1 if failed else 0


if __name__ == "__main__":
    sys.exit(main())
