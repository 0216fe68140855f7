#!/usr/bin/env python3
"""Alters the definitions of a crate, one place at a time, and says which of its computed values refuse each.

    pairs.py [--jobs N] [--most N] [--seed N] [--at-once N] [--kind KIND] [--quick] CRATE [FILE..]

A definition that is changed together with its code goes through every proof: only a value that is computed from it can refuse that. So
specs/ are altered, one place at a time and with no code beside them, in a copy whose functions are emptied and have a hole for a proof:

- signs: a number, a sum, a comparison, a truth value or a condition is another one;
- answers: an equation answers as the one beside it;
- parameters: a parameter, or what a line before was bound to, stands where another one does;
- names: so does a variant, a field or a function of the same type.

Each place is `refused` by modules of values, or else by definitions of a law; or it is `ill`, as no definition any more; or it passes. What
passes has to be read: a definition that only stands between others is held to them by proofs. Where no value reads its file, it is `unread`
under --quick, since nothing looked at it. Folders of specs/ hold proofs of laws, and are left as they are.

The values alone come first, by a function that does nothing and whose proof reads them, and several places in one check: each in a copy
of its file, and of the files that stand on it, under names of their own. What they let pass is checked as a whole, but under --quick.

It runs at the top of a repository whose libraries are built. No gate runs it.
"""
import argparse
import concurrent.futures
import glob
import os
import random
import re
import shutil
import subprocess
import sys
import tempfile
from typing import NamedTuple

sys.dont_write_bytecode = True
sys.path.insert(0, os.path.dirname(os.path.abspath(__file__)))
import judge

RT = judge.RT

# The modules of a crate's proofs that compute values.
VALUES = re.compile(r"(?:Worked|Standard|Instances|Sample)\w*")

# What stands in the place of what, beside each number, for which the numbers beside it do.
WORDS = {
    " + ": " * ",
    " * ": " + ",
    " - ": " + ",
    " ≤ ": " < ",
    " < ": " ≤ ",
    " == ": " == 1 + ",
    " && ": " || ",
    " || ": " && ",
    " ⊎ ": " × ",
    " true": " false",
    " false": " true",
    "nat_lt ": "nat_le ",
    "nat_le ": "nat_lt ",
    "int_lt ": "int_le ",
    "int_le ": "int_lt ",
    "int_min ": "int_max ",
    "int_max ": "int_min ",
}
# The names that they need an import of: of a word its own, of a sign that with its places.
IMPORTS = {new: new.strip() for new in WORDS.values() if new.strip().isidentifier()}
IMPORTS |= {f" {it} ": f"◌{it}◌" for it in ("*", "+", "<", "≤", "||", "&&")} | {" == 1 + ": "◌+◌"}
NUMBER = re.compile(r"(?<![\w.'≡{])(?<!Type )(?:0x[0-9A-Fa-f]+|\d+)(?![\w.'])")
CONDITION = re.compile(r"\bif (.+?) then\b")
# A definition's name in front of an equation's patterns, and what it answers.
EQUATION = re.compile(r"(\s*(?:\w+|◌\S+) )(.*?) = (.+)")
PARAMETER = re.compile(r"(?<![\w.'◌])[a-z][a-z_]*(?![\w'◌])")
# A variant, by its enum's other name too, or a function.
NAME = re.compile(r"(?<![\w.'◌])(?:[a-z]\w*\.)?[A-Za-z]\w*(?![\w'◌])")
# The beginnings of lines: of what stands outside of definitions; of a record or an enum; of a type; of an equation, with its patterns; of a
# field; of what is bound, or given to a field.
OUTSIDE = re.compile(r"\s*(?:use|(?:pub )?mod|module) ")
BLOCK = re.compile(r"\s*(?:pub )?(?:record|data) .* where")
SIGNATURE = re.compile(r"\s*(?:(?:abbrev|unfoldable) )?(?:pub )?\S+ : ")
HEAD = re.compile(r"\s*\S+( .*?)? =(?: |$)")
FIELD = re.compile(r"\s*(?:pub )?\w+ : ")
BOUND = re.compile(r"\s*([\w(), ]+) (?:←|=) ")
BINDER = re.compile(r"[({]([a-z][\w ]*) : ")
ERROR = re.compile(r"(?m)^\./(\S+?):\d+:\d+: error: ")
# A function that does nothing, whose proof reads the modules of values.
READER = "reads_values"


class Place(NamedTuple):
    """A place of a file of definitions, and what stands there instead. What stands there already alters nothing."""

    path: str
    line: int
    begin: int
    end: int
    new: str

    def altered(self, text):
        """The text with the place altered, and its line."""
        lines = text.split("\n")
        line = lines[self.line]
        line = lines[self.line] = line[: self.begin] + self.new + line[self.end :]
        name = "not" if self.new.startswith("if not ") else IMPORTS.get(self.new)
        uses = [at for at, it in enumerate(lines) if it.startswith("use ")]
        if name and not any(re.search(rf"[{{ ]{re.escape(name)}[,}}]", lines[at]) for at in uses):
            lines.insert(uses[0], f"use Rattle.std.specs.Prelude.{{{name}}}")
        return "\n".join(lines), line.strip()


def answers_of(text):
    """The lines of a file that say what something is, each with where that begins, and with the names that stand for something there."""
    names, depth, block = None, -1, None
    for number, line in enumerate(text.split("\n")):
        code = line.partition("--")[0].rstrip()
        indent = len(code) - len(code.lstrip())
        if not code:
            continue
        if block is not None and indent <= block:
            block = None
        head = HEAD.match(code)
        if BLOCK.match(code):
            names, depth, block = BINDER.findall(code), indent, indent
        elif block is not None:
            field = FIELD.match(code)
            yield number, code, field.end() if field else indent, words_of([*names, *BINDER.findall(code)])
        elif OUTSIDE.match(code) or SIGNATURE.match(code):
            names, depth = None, indent
        elif head and indent <= depth:
            names = words_of(PARAMETER.findall(head[1] or ""))
            yield number, code, head.end(), names
        elif names is not None:
            bound = BOUND.match(code)
            yield number, code, bound.end() if bound else indent, names
            names = words_of([*names, *PARAMETER.findall(bound[1])]) if bound else names


def words_of(texts):
    """Each word of some texts, once."""
    return list(dict.fromkeys(word for it in texts for word in it.split()))


def signs_of(path, text, others):
    """The places of a file where a number, a sign or a condition can be another."""
    for number, code, start, _ in answers_of(text):
        for found in NUMBER.finditer(code, start):
            value = int(found[0], 0)
            yield from (Place(path, number, found.start(), found.end(), str(it)) for it in (value + 1, value - 1) if it >= 0)
        for old, new in WORDS.items():
            for found in re.finditer(re.escape(old), code[start - 1 :]):
                yield Place(path, number, start - 1 + found.start(), start - 1 + found.end(), new)
        for found in CONDITION.finditer(code):
            yield Place(path, number, found.start(), found.end(), f"if not ({found[1]}) then")


def neighbours_of(path, text, others):
    """The equations of a file, each with what another one beside it of the same definition answers."""
    found = [EQUATION.fullmatch(it) for it in text.split("\n")]
    for number, it in enumerate(found):
        beside = (*found[number + 1 : number + 2], *found[max(number - 1, 0) : number])
        answers = [other[3] for other in beside if it and other and other[1] == it[1] and other[3] != it[3]]
        if answers:
            yield Place(path, number, it.start(3), it.end(3), answers[0])


def parameters_of(path, text, others):
    """The places of a file where a parameter is named, with the one behind it; behind the last is the first."""
    for number, code, start, names in answers_of(text):
        for found in PARAMETER.finditer(code, start):
            if found[0] in names and len(names) > 1:
                yield Place(path, number, found.start(), found.end(), names[(names.index(found[0]) + 1) % len(names)])


def names_of(path, text, others):
    """The places of a file where a variant, a field or a function is named, with another one that may stand there."""
    beside = beside_in(text)
    for number, code, start, names in answers_of(text):
        for found in NAME.finditer(code, start):
            if found[0] in beside and found[0] not in names:
                yield Place(path, number, found.start(), found.end(), beside[found[0]])
        for found in re.finditer(r"(?<=[\w)]\.)[a-z]\w*", code[start:]):
            for other in others.get(found[0], ()):
                yield Place(path, number, start + found.start(), start + found.end(), other)


KINDS = {"signs": signs_of, "answers": neighbours_of, "parameters": parameters_of, "names": names_of}


def in_turn(groups):
    """Each name of some groups with the next of its group."""
    return {it: group[(at + 1) % len(group)] for group in groups for at, it in enumerate(group) if len(group) > 1}


def beside_in(text):
    """Each variant that a file names with the next of its enum, and each function that it defines with the next one of its type."""
    groups = [[it.split(" as ")[-1].strip() for it in found.split(",")] for found in re.findall(r"(?m)^use \S+\.TheVariants\.\{(.*)\}", text)]
    for alias in re.findall(r"(?m)^use \S+\.TheVariants as (\w+)", text):
        groups.append(sorted(set(re.findall(rf"\b{alias}\.\w+", text))))
    of_type = {}
    for name, sort in re.findall(r"(?m)^\s*(?:abbrev |unfoldable )?(?:pub )?(\w+|◌\S+) : (.*)", text):
        of_type.setdefault(sort.strip(), {})[name] = None
    return in_turn([*groups, *map(list, of_type.values())])


def fields_beside():
    """Each field of the repository's records and structs with those of the same type beside it."""
    found = {}
    for top in ("specs/*.antt", "src/*.rt"):
        for path in glob.glob(f"crates/*/{top}"):
            for body in re.findall(r"(?m)^(?:pub record .* where|pub struct .*\{)$((?:\n\s+.*|\n$)+)", RT.rtlib.text_of(path)):
                of_type = {}
                for name, sort in re.findall(r"(?m)^\s+(?:pub )?(\w+) ?: (.*?),?$", body):
                    of_type.setdefault(sort, {})[name] = None
                for name, other in in_turn(map(list, of_type.values())).items():
                    found.setdefault(name, {})[other] = None
    return found


def keep_values(crate, room):
    """Drops of a copy's proofs the modules that no value reads, and what the functions' tactics name of them."""
    top = f"{room}/proofs"
    texts = {it[: -len(".antt")]: RT.rtlib.text_of(f"{top}/{it}") for it in os.listdir(top) if it.endswith(".antt") and it != "Lib.antt"}
    reached, found = set(), {it for it in texts if VALUES.fullmatch(it)}
    while found:
        reached |= found
        found = {it for module in found for it in re.findall(rf"\bRattle\.{crate.name}\.proofs\.(\w+)", texts[module])} & texts.keys() - reached
    for module in texts.keys() - reached:
        os.remove(f"{top}/{module}.antt")
    listed = RT.rtlib.text_of(f"{top}/Lib.antt").splitlines()
    with open(f"{top}/Lib.antt", "w", encoding="utf-8") as file:
        file.writelines(f"{it}\n" for it in listed if not (judge.MODULE.match(it) and judge.MODULE.match(it)[1] in texts.keys() - reached))
    for source, text in judge.sources_of(room)[0].items():
        with open(f"{room}/{source}", "w", encoding="utf-8") as file:
            file.write(re.sub(r"(?m)^\s*#\[tactic\(auto, [^\n]*\)\]\n", "", text))


def add_reader(crate, room):
    """Adds the function by which the values alone are checked."""
    with open(f"{room}/src/lib.rt", "a", encoding="utf-8") as file:
        file.write(f"\npub fn {READER}() {{}}\n")
    read_by_reader(crate, room, (it for it in modules_of(room) if it.startswith("proofs/")))


def read_by_reader(crate, room, paths):
    """Has the function's proof read the modules of values among these."""
    judge.leave_open(crate, room, READER)
    path = f"{room}/proofs/{READER}/Proof.antt"
    hole = RT.rtlib.text_of(path)
    values = sorted(it for it in map(name_of, paths) if VALUES.fullmatch(it))
    with open(path, "w", encoding="utf-8") as file:
        file.writelines(f"use Rattle.{crate.name}.proofs.{it}\n" for it in values)
        file.write(hole)


def name_of(path):
    """The module of a file."""
    return os.path.basename(path)[: -len(".antt")]


def modules_of(room):
    """The texts of a copy's definitions and of its proofs that aren't a function's."""
    paths = [f"{part}/{it}" for part in ("specs", "proofs") for it in sorted(os.listdir(f"{room}/{part}")) if it.endswith(".antt")]
    return {it: RT.rtlib.text_of(f"{room}/{it}") for it in paths if name_of(it) != "Lib"}


def uses_of(crate, paths):
    """What finds in a text where it names the modules of these files."""
    modules = (re.escape(it[: -len(".antt")].replace("/", ".")) for it in paths)
    return re.compile(rf"\bRattle\.{crate.name}\.(?:{'|'.join(modules)})(?!\w)")


def standing_on(crate, texts, path):
    """A file of these, and all of them that read it, or one that does."""
    reached, found = set(), {path}
    while found:
        reached |= found
        reads = uses_of(crate, found)
        found = {it for it, text in texts.items() if it not in reached and reads.search(text)}
    return reached


def is_read(crate, texts, path):
    """Whether values read a file of these."""
    return any(VALUES.fullmatch(name_of(it)) for it in standing_on(crate, texts, path) if it.startswith("proofs/"))


def copies_of(crate, texts, place, number):
    """A file with a place altered, none for no place, and what stands on the file, under names with a number."""
    paths = standing_on(crate, texts, place.path)
    altered = texts | {place.path: place.altered(texts[place.path])[0]}
    uses = uses_of(crate, paths)
    return {it.replace(".antt", f"At{number}.antt"): uses.sub(rf"\g<0>At{number}", altered[it]) for it in paths}


def prepare(crate, room):
    """Makes the copy whose definitions are altered."""
    for part in RT.rtlib.PARTS:
        if os.path.isdir(f"{crate.folder}/{part}"):
            shutil.copytree(f"{crate.folder}/{part}", f"{room}/{part}")
    judge.emptied(crate, room, set())
    keep_values(crate, room)
    add_reader(crate, room)


def wrong_files(crate, room, more):
    """The files of a copy in which the prover finds an error, and whether it came to its end."""
    words = [RT.rtlib.RATTLE, "check", *crate.words(["--jobs", "1", "--allow-holes", *more], keeps=False)]
    how = {"cwd": room, "stdin": subprocess.DEVNULL, "stdout": subprocess.PIPE, "stderr": subprocess.STDOUT, "errors": "replace"}
    said = subprocess.run([*RT.rtlib.guarded(), *words], text=True, **how).stdout
    return set(ERROR.findall(said)), bool(re.search(r"(?m)^(?:holes|logic|only)=", said))


def verdict_of(place, wrong, is_over):
    """What the errors of a copy say of the place that is altered in it."""
    values = sorted(it for it in wrong if it.startswith("proofs/") and VALUES.match(it[len("proofs/") :]))
    laws = sorted(it for it in wrong if it.startswith("specs/"))
    if not is_over or place.path in wrong:
        return "ill"
    return f"refused by {', '.join(values or laws)}" if values or laws else "passes"


def judged_at_once(crate, base, places):
    """What the values say of places, each in copies of modules; none of any where the prover comes to no end."""
    texts = modules_of(base)
    with tempfile.TemporaryDirectory(prefix="pairs-") as room:
        shutil.copytree(base, room, dirs_exist_ok=True)
        copies = {}
        for number, place in enumerate(places):
            copies |= copies_of(crate, texts, place, number)
        for path, text in copies.items():
            with open(f"{room}/{path}", "w", encoding="utf-8") as file:
                file.write(text)
        for part, word in (("specs", "pub mod"), ("proofs", "mod")):
            with open(f"{room}/{part}/Lib.antt", "a", encoding="utf-8") as file:
                file.writelines(f"{word} {name_of(it)}\n" for it in sorted(copies) if it.startswith(f"{part}/"))
        read_by_reader(crate, room, copies)
        wrong, is_over = wrong_files(crate, room, ["--only", READER])
    if not is_over:
        return [None] * len(places)
    named = [{it.replace(f"At{number}.antt", ".antt") for it in wrong if it.endswith(f"At{number}.antt")} for number in range(len(places))]
    return [verdict_of(place, found, True) for place, found in zip(places, named)]


def judged(crate, base, place, is_quick):
    """What is said of a place, altered in a copy of its own."""
    with tempfile.TemporaryDirectory(prefix="pair-") as room:
        shutil.copytree(base, room, dirs_exist_ok=True)
        with open(f"{room}/{place.path}", "w", encoding="utf-8") as file:
            file.write(place.altered(RT.rtlib.text_of(f"{base}/{place.path}"))[0])
        verdict = verdict_of(place, *wrong_files(crate, room, ["--only", READER]))
        if verdict == "passes" and not is_quick:
            verdict = verdict_of(place, *wrong_files(crate, room, []))
    return verdict


def judged_in_turn(crate, base, places, is_quick):
    """What is said of places, at once where that can be, and else one by one."""
    verdicts = judged_at_once(crate, base, places) if len(places) > 1 else [None]
    for place, verdict in zip(places, verdicts):
        by_itself = verdict is None or (verdict == "passes" and not is_quick)
        yield place, judged(crate, base, place, is_quick) if by_itself else verdict


def in_groups(crate, base, places, most):
    """Places that go into one check: none beside others of a file whose values are other ones in a copy that alters nothing."""
    paths = sorted({it.path for it in places})
    plain = judged_at_once(crate, base, [Place(it, 0, 0, 0, "") for it in paths])
    if None in plain:
        sys.exit(f"{crate.name} isn't checked as it stands: are its libraries built?")
    movable = {path for path, verdict in zip(paths, plain) if verdict == "passes"}
    together = [it for it in places if it.path in movable]
    yield from (together[at : at + most] for at in range(0, len(together), most))
    yield from ([it] for it in places if it.path not in movable)


def main():
    words = argparse.ArgumentParser()
    words.add_argument("--jobs", type=int, default=os.cpu_count() or 1)
    words.add_argument("--most", type=int, default=sys.maxsize)
    words.add_argument("--seed", type=int, default=1)
    words.add_argument("--at-once", type=int, default=8, help="places in one check")
    words.add_argument("--kind", action="append", choices=KINDS, help="what is altered; none: all")
    words.add_argument("--quick", action="store_true", help="asks the values alone")
    words.add_argument("crate")
    words.add_argument("files", nargs="*", help="of specs/, as Spelling; none: all")
    given = words.parse_args()
    crate = next((it for it in RT.rtlib.crates_below(os.getcwd()) if it.name == given.crate), None)
    if not crate or not os.path.isdir(f"{crate.folder}/proofs"):
        words.error(f"{given.crate} is no crate with computed values")
    RT.rtlib.guarded()
    with tempfile.TemporaryDirectory(prefix="pairs-") as base, concurrent.futures.ThreadPoolExecutor(given.jobs) as pool:
        prepare(crate, base)
        texts = {it: text for it, text in modules_of(base).items() if it.startswith("specs/") and (not given.files or name_of(it) in given.files)}
        kinds = [KINDS[it] for it in given.kind or KINDS]
        beside = fields_beside()
        places = [place for path, text in texts.items() for kind in kinds for place in kind(path, text, beside)]
        random.Random(given.seed).shuffle(places)
        chosen = places[: given.most]
        modules = modules_of(base)
        unread = {it for it in texts if given.quick and not is_read(crate, modules, it)}
        passed = 0
        groups = in_groups(crate, base, chosen, given.at_once)
        for found in pool.map(lambda group: list(judged_in_turn(crate, base, group, given.quick)), groups):
            for place, verdict in found:
                verdict = "unread" if verdict == "passes" and place.path in unread else verdict
                passed += verdict == "passes"
                print(f"{place.path}:{place.line + 1}: {verdict}: {place.altered(texts[place.path])[1]}", flush=True)
        print(f"pairs: {len(chosen)} of {len(places)} places, {passed} pass")


if __name__ == "__main__":
    main()
