#!/usr/bin/env python3
"""Plants the edits crates/NAME/edits/*.edit and sees that the prover refuses each.

    judge.py [--jobs N] [--folder NAME] [--times] [--harmless] [CRATE ..]
    judge.py --table [CRATE ..]

It runs at the top of a repository whose libraries are built (`rt ci` leaves them so), and counts on its last line. An edit is a
file of lines `file: PATH` and then pairs of `old: TEXT` and `new: TEXT`, as `rt must-fail` reads it, behind a line `# MISTAKE: refused at
FUNCTION by CLAUSE`. --times says what each check took, in processor seconds, and its dearest functions. --harmless plants nothing and
counts the functions that are still as they should be. --table plants nothing and writes the first lines as a table.

`rt must-fail` checks a crate once for each edit. Here many edits are planted in one copy, one in each function and the further ones in
twins of it, and only the edited functions are checked; each has to be refused by a line of its own. All other functions are emptied in the copy, and have a hole
for a proof: what is called is taken at its contract, as in the goals of its callers, and isn't proved once more. What isn't refused so,
and what stands in no function, is planted alone and judged by the kit's own rules over the whole crate.
"""
import argparse
import concurrent.futures
import importlib.machinery
import importlib.util
import os
import re
import shutil
import subprocess
import sys
import tempfile
import time

sys.dont_write_bytecode = True
sys.path.insert(0, os.path.dirname(os.path.abspath(__file__)))
import arms


def kit():
    """The kit's own rt, as a module."""
    path = os.path.realpath(shutil.which("rt"))
    loader = importlib.machinery.SourceFileLoader("rt", path)
    module = importlib.util.module_from_spec(importlib.util.spec_from_loader("rt", loader))
    module.__file__ = path
    loader.exec_module(module)
    module.Crate.cuts_libraries = True
    module.rtlib.Crate = module.Crate
    module.rtlib.guarded()
    return module


RT = kit()

FUNCTION = re.compile(r"^([ ]*)(?:pub(?:\([^)]*\))? )?(?:const )?(?:unsafe )?fn (\w+)", re.M)
CLAUSE = re.compile(r"^ +(?:requires|ensures|ghost)\*? ", re.M)
TYPE = re.compile(r"^(?:pub(?:\([^)]*\))? )?(?:struct|enum) (\w+)", re.M)
BLOCK = re.compile(r"^impl(?:<[^{]*?>)? (?:([\w:]+)(<[^{]*?>)? for )?(\w+)|^(?:pub(?:\([^)]*\))? )?trait (\w+)", re.M)


class Function:
    """A function of a file: the end of its path as the prover names it, where its text stands, and where its body does, with the braces,
    if it can be emptied. A method goes by its type, since its path is that of the type's module."""

    def __init__(self, path, start, end, body, is_of_trait, names_itself):
        self.path, self.start, self.end, self.body = path, start, end, body
        self.is_of_trait = is_of_trait
        # A method of a trait can't have a twin, nor can a function that calls itself, since its twin would call it.
        self.is_single = is_of_trait or names_itself

    def folder(self, source, homes):
        """Its folder of proofs, in that of its crate. A type's own methods are where the type is, by these homes of types."""
        module = module_of(source)
        if not self.is_of_trait:
            module = homes.get(self.path.partition("::")[0], module)
        path = self.path if not module or self.path.startswith(f"{module}::") else f"{module}::{self.path}"
        return path.replace("::", "/")


def functions_of(source, text):
    """The functions of a source file. A function's text goes up to the brace that closes it, at its own indentation."""
    module = module_of(source)
    found = []
    matches = list(FUNCTION.finditer(text))
    for match, following in zip(matches, [*(it.start() for it in matches[1:]), len(text)]):
        closing = re.compile(rf"^{match[1]}\}}", re.M).search(text, match.end())
        end = closing.end() if closing else len(text)
        owner = module
        if match[1]:
            block = [it for it in BLOCK.finditer(text, 0, match.start())][-1]
            trait = (block[1] or "").rpartition("::")[2]
            head = "" if block[1] or block[4] else text[block.start() : text.find("{", block.start())]
            # what a trait is given is a part of the path, as in `ProblemFromLoadError`
            owner = f"{block[3] or block[4]}{trait if block[3] else ''}{''.join(heads_of(block[2] or ''))}{instance_of(head)}"
        body = body_of(text, match, following)
        path = f"{owner}::{match[2]}".removeprefix("::")
        is_of_trait = bool(match[1] and (block[1] or block[4]))
        inside = text[brace_of(text, match, following) : end]
        found.append(Function(path, match.start(), end, (body, end) if body else None, is_of_trait, calls_itself(path, module, bool(match[1]), inside)))
    return found


def instance_of(head):
    """What the prover adds to the name of a type in a block of one instance of it, as `+R+Tested` in `impl<'a, R: Rows> Machine<'a, R, Tested>`.
    Such a block's functions are named by its own module."""
    found = re.match(r"impl(?:<(.*?)>)? \w+<(.*)>\s*$", head, re.S)
    if not found:
        return ""
    own = set(re.findall(r"(?:^|,)\s*(\w+)", found[1] or ""))
    names = [it.strip() for it in found[2].split(",") if not it.strip().startswith("'")]
    return "".join(f"+{it}" for it in names) if any(it not in own for it in names) else ""


def heads_of(arguments):
    """The names of the types that a trait is given, as the prover writes them: without a path, without what they are given themselves, and
    with a capital, as in `CountFromU16`."""
    depth, names = 0, []
    for mark in re.findall(r"[<>]|(?:\w+::)*\w+", arguments):
        if depth == 1 and mark not in "<>":
            name = mark.rpartition("::")[2]
            names.append(name[0].upper() + name[1:])
        depth += (mark == "<") - (mark == ">")
    return names


def brace_of(text, match, following):
    """Where a function's body begins: behind clauses at a brace alone on its line, else at the first that ends a line; where it has none,
    its end."""
    brace = re.compile(rf"^{match[1]}\{{\n" if CLAUSE.search(text, match.end(), following) else r"\{\n", re.M).search(text, match.end(), following)
    return brace.end() - len("{\n") if brace else following


def body_of(text, match, following):
    """Where a function's body begins. None where it has no body, and where that is more than code: of a constant function, or of one that
    returns some type."""
    at = brace_of(text, match, following)
    begun = text[match.start() : at]
    if at == following or "const fn" in begun or re.search(r"-> impl\b", begun) or ";\n" in begun:
        return None
    return at


def calls_itself(path, module, is_method, body):
    """Whether a body calls its own function, by how such a call is written: a method by its type or on what it is a method of, another
    function by its name or its module. What else has the same name belongs to another type or module."""
    owner, _, name = path.rpartition("::")
    if is_method:
        written = rf"(?:\bself\.|\b(?:Self|{re.escape(owner)})(?:::<[^()]*>)?::){name}\b"
    else:
        last = module.rpartition("::")[2] or "crate"
        written = rf"(?<![\w.:]){name}\b|\b(?:self|{re.escape(last)})::{name}\b"
    return bool(re.search(rf"(?:{written})\s*(?:::<[^()]*>)?\(", body))


def module_of(source):
    module = os.path.splitext(source[len("src/") :])[0].replace("/", "::")
    return "" if module in ("lib", "main") else module


class Edit:
    """An edit: the texts of the files that it changes, and what of the crate it stands in."""

    def __init__(self, name, why, pairs, places):
        self.name, self.why, self.pairs, self.places = name, why, pairs, places
        # In which twin of its function it is planted, where that isn't the function itself.
        self.number = 0
        # The arm of its function's longest match that it stands in, with the match's other ones left out where it is planted.
        self.arm = None
        # Whether searches have half of their counts where it is planted.
        self.is_halved = False

    def is_within_functions(self):
        return None not in self.places

    def planted_at(self):
        return {twin(place, self.number) for place in self.places}

    def has_original(self):
        """Whether its function stands unedited beside it, and has to be proved for it to count."""
        return self.arm is not None or self.is_halved


# The words that begin the lines of an edit, behind its first line, which says what the mistake is and what refuses it.
FORM = re.compile(r"(?:file:(?:old:new:)+)+")
TOLD = re.compile(r"# (.+): refused at (.+) by (.+)")


def read_edit(folder, path, functions, texts):
    """Reads an edit, and says in `why` what keeps it from being planted."""
    name = os.path.basename(path)[: -len(".edit")]
    changed, why = RT.read_edit(path, folder)
    if why:
        return Edit(name, why, [], set())
    with open(path, encoding="utf-8") as file:
        lines = file.read().removesuffix("\n").split("\n")
    lines = lines[1:] if TOLD.fullmatch(lines[0]) else lines
    # What goes on in a further line would be planted by its first line alone.
    if not FORM.fullmatch("".join(f"{line.partition(':')[0]}:" for line in lines)):
        return Edit(name, "a text goes over several lines, or a line is none of file:, old: and new: in turn", [], set())
    pairs, places, source, old = [], set(), "", None
    for line in lines:
        if line.startswith("file: "):
            source = line[len("file: ") :].strip()
        elif line.startswith("old: "):
            old = line[len("old: ") :]
        else:
            pairs.append((source, old, line[len("new:") :].removeprefix(" ")))
            places.add(place_of(source, old, functions, texts))
    return Edit(name, None, pairs, places)


def place_of(source, old, functions, texts):
    """The function that a text of a file stands in; none where it stands outside, as in a constant."""
    found = function_at(functions.get(source, []), texts.get(source, "").find(old))
    return found.path if found else None


def function_at(functions, at):
    around = [it for it in functions if it.start <= at < it.end]
    return around[-1] if around else None


HOLE = """use Rattle.{module}.Statement.{{statement}}

pub {name}_spec : {{M : Type 1}} → statement M
{name}_spec = ?
"""


def sources_of(room):
    """The texts of a copy's source files, and the module of each type."""
    texts = {}
    for at, _, files in os.walk(f"{room}/src"):
        for source in (os.path.relpath(f"{at}/{name}", room) for name in files):
            with open(f"{room}/{source}", encoding="utf-8") as file:
                texts[source] = file.read()
    return texts, {name: module_of(source) for source, text in texts.items() for name in TYPE.findall(text)}


def emptied(crate, room, only):
    """Empties the functions of a copy that aren't asked for: with a hole for a proof, what calls them has their contracts alone."""
    texts, homes = sources_of(room)
    for source, text in texts.items():
        functions = [it for it in functions_of(source, text) if it.body and it.path not in only]
        for function in reversed(functions):
            text = f"{text[: function.body[0]]}{{ unreachable!() }}{text[function.body[1] :]}"
        with open(f"{room}/{source}", "w", encoding="utf-8") as file:
            file.write(text)
        for folder in (it.folder(source, homes) for it in functions):
            leave_open(crate, room, folder)


def leave_open(crate, room, path):
    """Puts a hole in the place of a function's proof."""
    folder = f"{room}/proofs/{path}"
    os.makedirs(folder, exist_ok=True)
    for name in ("Answers", "Invariants"):
        if os.path.exists(f"{folder}/{name}.antt"):
            os.remove(f"{folder}/{name}.antt")
    with open(f"{folder}/Proof.antt", "w", encoding="utf-8") as file:
        file.write(HOLE.format(module=f"{crate.name}.proofs.{path.replace('/', '.')}", name=path.rpartition("/")[2]))


MODULE = re.compile(r"(?:pub )?mod (\w+)$")


def drop_unread(name, room):
    """Drops the modules of a copy's proofs that nothing reads of what is left. An edit counts by a line on its own function, so none is refused
    by them, and computed values alone may take as long as many edits."""
    top = f"{room}/proofs"
    if not os.path.isdir(top):
        return
    texts = {it[: -len(".antt")]: RT.rtlib.text_of(f"{top}/{it}") for it in os.listdir(top) if it.endswith(".antt")}
    listed = texts.pop("Lib", "").splitlines()
    modules = re.compile(rf"\b(?:crate::proofs::|Rattle\.{name}\.proofs\.)(\w+)")
    folders = [at for part in RT.rtlib.PARTS for at, _, _ in os.walk(f"{room}/{part}") if at != top]
    files = [f"{at}/{it}" for at in folders for it in os.listdir(at) if it.endswith((".rt", ".antt"))]
    reached, found = set(), {module for it in files for module in modules.findall(RT.rtlib.text_of(it))}
    while found:
        reached |= found
        found = {module for it in found & texts.keys() for module in modules.findall(texts[it])} - reached
    unread = texts.keys() - reached
    for module in unread:
        os.remove(f"{top}/{module}.antt")
    if listed:
        with open(f"{top}/Lib.antt", "w", encoding="utf-8") as file:
            file.writelines(f"{it}\n" for it in listed if not (MODULE.match(it) and MODULE.match(it)[1] in unread))


def prove_twins(room):
    """Copies the proof files of each function that has twins in a copy of a crate."""
    texts, homes = sources_of(room)
    twins = [it.folder(source, homes) for source, text in texts.items() for it in functions_of(source, text) if TWIN.search(it.path)]
    for folder in twins:
        first = TWIN.sub("", folder)
        if os.path.isdir(f"{room}/proofs/{first}"):
            shutil.copytree(f"{room}/proofs/{first}", f"{room}/proofs/{folder}")
            for name in os.listdir(f"{room}/proofs/{folder}"):
                rename(f"{room}/proofs/{folder}/{name}", first.replace("/", "."), folder.replace("/", "."))


def rename(path, old, new):
    with open(path, encoding="utf-8") as file:
        text = file.read()
    with open(path, "w", encoding="utf-8") as file:
        file.write(re.sub(rf"\.proofs\.{re.escape(old)}\b", f".proofs.{new}", text))


# The crates whose edits mostly leave the prover searching, and whose functions mostly are proved with half the counts of its searches too. The
# functions that are named aren't, so that their edits needn't be tried with half.
HALVED = {
    "zobj": (),
    "zplace": (),
}


def needs_all(crate, places):
    """Whether a search has all its counts where one of these functions is edited. Else it is tried with half of them: a wrong function has no proof
    however far it is sought, and it counts only if the right one, which stands beside it, has one in half of the counts too."""
    return crate.name not in HALVED or any(TWIN.sub("", place) in HALVED[crate.name] for place in places)


def check(crate, texts, only, kept, is_halved=False):
    """What the prover says of these functions, and where they stand, in a copy of the crate with these texts in place of its own and all
    other functions emptied; with half the counts of a search, where that is asked for."""
    with tempfile.TemporaryDirectory(prefix="judge-edit-") as room:
        for part in RT.rtlib.PARTS:
            if os.path.isdir(f"{crate.folder}/{part}"):
                shutil.copytree(f"{crate.folder}/{part}", f"{room}/{part}")
        for path, text in texts.items():
            with open(f"{room}/{path}", "w", encoding="utf-8") as file:
                file.write(text)
        prove_twins(room)
        emptied(crate, room, only)
        drop_unread(crate.name, room)
        spans = spans_of(room, only)
        flags = ["--jobs", "1", *(["--margin"] if is_halved else []), "--allow-holes", "--progress"]
        flags += (word for path in sorted(only) for word in ("--only", path))
        words = [RT.rtlib.RATTLE, "check", *crate.words(flags, keeps=False), *(["--incremental", kept] if kept else [])]
        return run(crate, [*RT.rtlib.guarded(), *words], room), spans


def spans_of(room, only):
    """Where functions stand in a copy: the file, and the first and last line."""
    spans = {}
    for source, text in sources_of(room)[0].items():
        for it in functions_of(source, text):
            if it.path in only:
                spans[it.path] = source, text.count("\n", 0, it.start) + 1, text.count("\n", 0, it.end) + 1
    return spans


def run(crate, words, room):
    """What a prover says. It notes what the whole took, in processor seconds, and how long each function, by the clock."""
    how = {"cwd": room, "stdin": subprocess.DEVNULL, "stdout": subprocess.PIPE, "stderr": subprocess.STDOUT, "errors": "replace"}
    lines, last, functions = [], time.monotonic(), []
    with subprocess.Popen(words, text=True, **how) as process:
        for line in process.stdout:
            lines.append(line)
            if line.startswith("checked "):
                functions.append((time.monotonic() - last, line.split()[1].rstrip(",")))
            last = time.monotonic()
        _, status, usage = os.wait4(process.pid, 0)
        process.returncode = os.waitstatus_to_exitcode(status)
    TOOK.append((crate.name, usage.ru_utime + usage.ru_stime, sorted(functions, reverse=True)))
    return "".join(lines)


# What each check took.
TOOK = []


# The end of the name of a function's twin.
TWIN = re.compile(r"_edited_\d+$")


def twin(path, number):
    return f"{path}_edited_{number}" if number else path


def planted(crate, edits):
    """The texts of the files that edits change: each edit in the text of its function, as one may write what another one looks for, and
    all edits of a function but the first in twins of it. Of a function whose arms are left out no edit is the first: it has the arms of
    its edits, as they are."""
    texts, made = {}, {}
    for edit in edits:
        for source, old, new in edit.pairs:
            if source not in texts:
                with open(f"{crate.folder}/{source}", encoding="utf-8") as file:
                    texts[source] = file.read()
            function = function_at(functions_of(source, texts[source]), texts[source].find(old))
            begin = with_attributes(texts[source], function) if edit.number else function.start
            key = source, function.end, edit.number, begin, function.path
            text = texts[source][begin : function.end]
            if edit.arm is not None:
                body, kept = function.body[0], {it.arm for it in edits if it.places == edit.places and it.arm is not None}
                text = texts[source][begin:body] + arms.with_arms(texts[source][body : function.end], {edit.arm})
                first = texts[source][function.start : body] + arms.with_arms(texts[source][body : function.end], kept)
                made[source, function.end, 0, function.start, function.path] = first
            made[key] = made.get(key, text).replace(old, new)
    for (source, end, number, begin, path), text in sorted(made.items(), reverse=True):
        name = path.rpartition("::")[2]
        if number:
            text = "\n\n" + re.sub(rf"\bfn {name}\b", f"fn {twin(name, number)}", text, count=1)
        texts[source] = texts[source][: end if number else begin] + text + texts[source][end:]
    for source in {source for edit in edits if edit.arm is not None for source, _, _ in edit.pairs}:
        texts[source] += arms.LEFT_OUT
    return texts


def with_attributes(text, function):
    """Where begins what stands right above a function."""
    lines = text[: function.start].split("\n")
    above = len(lines) - 1
    while above and lines[above - 1].strip() and not lines[above - 1].endswith(("{", "}")):
        above -= 1
    return len("\n".join(lines[:above])) + (1 if above else 0)


# An error that only says that a proof file names what an edit took away.
OF_NAMES = re.compile(r"has no field|is not in scope|has no `|was not admitted")


def lines_of(place, said):
    """What is said of a function, and of its closures: under their whole paths, as those of their folders of proofs."""
    found = re.findall(rf"(?m)^fn \w+::((?:\w+::)*{re.escape(place)}|(?:\w+::)*fn::{re.escape(place)}::[^:\n]*): (.*)$", said)
    return [(path.replace("::", "/"), text) for path, text in found]


# What is said of a goal that has been found false: where its function stands, or its closure or call.
FALSE = re.compile(r"(?m)^note: (src/\S+?):(\d+):\d+: .*; the facts known there allow values at which this goal is false$")


def is_refused_here(place, said, spans):
    """Whether it is said of a function itself that it isn't proved, and not because of another one, or of a name in a proof file. A goal
    of its own takes the contracts of what it calls as given, so it counts whatever else isn't proved."""
    source, first, last = spans.get(place, ("", 0, 0))
    is_false = any(file == source and first <= int(line) <= last for file, line in FALSE.findall(said))
    for folder, line in lines_of(place, said):
        if line.startswith("no proof: ") and "`search` did not prove" in line:
            return True
        above, _, name = folder.rpartition("/")
        # (one that calls itself has a folder with a plus)
        own = rf"{re.escape(f'{above}/' if above else '')}\+?{re.escape(name)}"
        errors = re.findall(rf"(?m)^\./proofs/{own}/\S+: error: (.*)$", said)
        if line.startswith("not proved") and (is_false or any(not OF_NAMES.search(it) for it in errors)):
            return True
    return False


def arm_of(crate, edit, functions, texts):
    """The arm that an edit stands in of its function's longest match, where the other arms can be left out. They stay where the function has
    proof files, since these may name goals of any arm, and where it can't have a twin."""
    if len(edit.places) != 1 or not edit.is_within_functions():
        return None
    homes = {name: module_of(source) for source, text in texts.items() for name in TYPE.findall(text)}
    found = set()
    for source, old, new in edit.pairs:
        function = function_at(functions[source], texts[source].find(old))
        folder = f"{crate.folder}/proofs/{function.folder(source, homes)}"
        if not function.body or function.is_single or os.path.isdir(folder):
            return None
        body = texts[source][function.body[0] : function.body[1]]
        found.add(arms.arm_of(arms.longest(body), body.find(old), old, new))
    return found.pop() if len(found) == 1 else None


# What is said of a function whose own goals are proved: "it calls" stands first only where nothing of its own is left.
AS_IT_WAS = ("proved", "no holes", "depends on a hole", "no proof: it calls ")


def is_as_it_was(place, said):
    """Whether a function is as good as proved, with holes for what it calls, or with edits planted there."""
    lines = [text for _, text in lines_of(place, said)]
    return bool(lines) and all(text.startswith(AS_IT_WAS) for text in lines)


def refused_together(crate, edits, kept):
    """Of the edits that are planted together, those that are refused by a line of their own; where arms are left out, or searches have half of
    their counts, only if the function is proved so without the edit. None where nothing was judged, as where one doesn't compile."""
    places = {place for edit in edits for place in edit.planted_at()}
    originals = {place for edit in edits if edit.has_original() for place in edit.places}
    said, spans = check(crate, planted(crate, edits), places | originals, kept, all(edit.is_halved for edit in edits))
    if not re.search(r"(?m)^only=", said) or RT.rtlib.STALE.search(said):
        return None
    sound = [edit for edit in edits if all(is_as_it_was(place, said) for place in edit.places & originals)]
    return {edit.name for edit in sound if any(is_refused_here(place, said, spans) for place in edit.planted_at())}


def halve(crate, edits, bound):
    """Has searches have half of their counts for the edits beside which their function can stand unedited, with no arm left out but theirs."""
    shortened = {place for edit in edits if edit.arm is not None for place in edit.places}
    for edit in edits:
        has_twin = len(edit.places) == 1 and not edit.places & bound
        edit.is_halved = has_twin and not needs_all(crate, edit.places) and (edit.arm is not None or not edit.places & shortened)


def in_rounds(crate, edits, functions, kept):
    """Plants edits together, one in each function and the further ones in twins of it; where it can't have one, as a method of a trait,
    they wait for a later round. What isn't refused with half the counts of a search is planted with all, and what isn't refused then with arms
    left out is planted in the whole function. Answers which are refused, and which are left to be tried over the whole crate."""
    bound = {it.path for found in functions.values() for it in found if it.is_single}
    halve(crate, edits, bound)
    refused, alone, left = [], [], edits
    while left:
        alike = [edit for edit in left if edit.is_halved == left[0].is_halved]
        chosen, taken = [], {place: 1 for edit in alike if edit.has_original() for place in edit.places}
        for edit in alike:
            is_twin = len(edit.places) == 1 and not edit.places & bound
            if is_twin or not edit.places & taken.keys():
                edit.number = max(taken.get(place, 0) for place in edit.places)
                chosen.append(edit)
                taken.update((place, edit.number + 1) for place in edit.places)
        well = refused_together(crate, chosen, kept)
        again = [edit for edit in chosen if edit.has_original() and edit.name not in (well or ())]
        if well is None and not again:
            well = {edit.name for edit in chosen if refused_together(crate, [edit], kept)}
        for edit in again:
            edit.arm = edit.arm if edit.is_halved else None
            edit.is_halved = False
        if well is None:
            continue
        refused += [edit for edit in chosen if edit.name in well]
        alone += [edit for edit in chosen if edit.name not in well and edit not in again]
        left = [edit for edit in left if edit not in chosen or edit in again]
    return refused, alone


CONSTANT = re.compile(r"^[ ]*(?:pub(?:\([^)]*\))? )?const (\w+):", re.M)


def users_of(edit, functions, texts):
    """The functions that use the constant that an edit stands in; none where that can't be told, as where another constant uses it."""
    found = set()
    for source, old, _ in edit.pairs:
        code, at = arms.blanked(texts[source]), texts[source].find(old)
        items = [it for it in CONSTANT.finditer(code) if it.start() <= at < arms.first_outside(code, ";", it.end(), len(code))]
        found.update((source, it[1], it.start(1)) for it in items)
    if len(found) != 1:
        return set()
    home, name, place = found.pop()
    users = set()
    for source, text in texts.items():
        code = arms.blanked(text)
        for it in re.finditer(rf"\b{name}\b", code):
            function = function_at(functions[source], it.start())
            begun = code[code.rfind("\n", 0, it.start()) + 1 : it.start()]
            if function and function.body:
                users.add(function.path)
            elif (source, it.start()) != (home, place) and not re.match(r"(pub(\([^)]*\))? |ghost )?use ", begun):
                return set()
    return users


def is_refused_by_users(crate, edit, users, kept):
    """Whether an edit of a constant is refused by a line of a function that uses it. It is planted by itself, since proofs of other
    functions may speak of the constant too."""
    texts = {}
    for source, old, new in edit.pairs:
        with open(f"{crate.folder}/{source}", encoding="utf-8") as file:
            texts[source] = texts.get(source, file.read()).replace(old, new)
    said, spans = check(crate, texts, users, kept)
    is_judged = re.search(r"(?m)^only=", said) and not RT.rtlib.STALE.search(said)
    return bool(is_judged) and any(is_refused_here(place, said, spans) for place in users)


def judge_alone(crate, path, kept):
    """An edit by itself over the whole crate, by the kit's own rules: whether it is refused at a contract, and what is said."""
    # What the kit answers beside its text differs from kit to kit. A refusal by a name, or by a limit of the prover, says so in brackets.
    _, text = RT.must_fail(crate, path, ["--jobs", "1"], kept)
    return ": refused, as it must be" in text and "as it must be (only " not in text, text


def judge_harmless(crate, edits, functions, texts):
    """The functions that edits stand in, or whose constants, and each further form in which they are planted, with whether it is as good as
    proved while no edit is planted."""
    places = {place for edit in edits for place in edit.places if place}
    places |= {place for edit in edits if not edit.is_within_functions() for place in users_of(edit, functions, texts)}
    halves = [{it for it in places if needs_all(crate, [it]) == whole} for whole in (False, True)]
    said = "".join(check(crate, {}, only, None, is_halved)[0] for only, is_halved in zip(halves, (True, False)) if only)
    shorter = [edit for edit in edits if edit.arm is not None]
    for number, edit in enumerate(shorter):
        edit.pairs, edit.number = [(source, old, old) for source, old, _ in edit.pairs], number + 1
    forms = {place for edit in shorter for place in {*edit.planted_at(), *edit.places}}
    said_of_forms, _ = check(crate, planted(crate, shorter), forms, None) if forms else ("", {})
    for what, told in [(places, said), (forms, said_of_forms)]:
        for place in sorted(what):
            text = "; ".join(text for _, text in lines_of(place, told)) or "nothing is said of it"
            yield place if told is said else f"{place}, shorter", is_as_it_was(place, told), text


def judge(crate, folder, is_harmless):
    """Each edit of a crate, with whether it is refused and what is said of it."""
    where = f"{crate.folder}/{folder}"
    names = sorted(os.listdir(where)) if os.path.isdir(where) else []
    texts = {}
    for at, _, files in os.walk(f"{crate.folder}/src"):
        for name in files:
            path = f"{at}/{name}"
            with open(path, encoding="utf-8") as file:
                texts[os.path.relpath(path, crate.folder)] = file.read()
    functions = {source: functions_of(source, text) for source, text in texts.items()}
    edits = [read_edit(crate.folder, f"{where}/{name}", functions, texts) for name in names if name.endswith(".edit")]
    told = [(name, False, "no edit has such a name") for name in names if not re.fullmatch(r"[a-z0-9_]+\.edit", name)]
    told += [(edit.name, False, f"it can't be planted: {edit.why}") for edit in edits if edit.why]
    good = [edit for edit in edits if not edit.why]
    for edit in good:
        edit.arm = arm_of(crate, edit, functions, texts)
    if is_harmless:
        return [*judge_harmless(crate, good, functions, texts)]
    with tempfile.TemporaryDirectory(prefix="judge-") as kept:
        refused, alone = in_rounds(crate, [edit for edit in good if edit.is_within_functions()], functions, kept)
        for edit in (it for it in good if not it.is_within_functions()):
            users = users_of(edit, functions, texts)
            (refused if users and is_refused_by_users(crate, edit, users, kept) else alone).append(edit)
        told += [(edit.name, True, "refused") for edit in refused]
        for edit in alone:
            well, text = judge_alone(crate, f"{where}/{edit.name}.edit", kept)
            told.append((edit.name, well, f"{'refused' if well else 'NOT REFUSED'}, alone: {text}"))
    return sorted(told)


def stale(crates):
    """The libraries that aren't built from the sources that are here. One that `rt ci` built has no stamp."""
    for crate in {dep.name: dep for it in crates for dep in it.below()}.values():
        stamp = RT.rtlib.text_of(f"{crate.folder}/out/rlib/stamp")
        if not os.path.isdir(crate.rlib) or stamp and stamp != crate.stamp():
            yield crate.name


def print_times(crate):
    """What the checks of a crate took, each with its dearest functions."""
    for seconds, functions in (it[1:] for it in TOOK if it[0] == crate):
        dearest = ", ".join(f"{path.partition('::')[2]} {length:.1f}" for length, path in functions[:12])
        print(f"times: {crate}: a check of {len(functions)} functions took {seconds:.1f} s: {dearest}", flush=True)


def print_table(crates, folder):
    """What the first lines of the edits say."""
    print("| Crate | Mistake | Refused at | By |\n|---|---|---|---|")
    for crate in sorted(crates, key=lambda it: it.name):
        where = f"{crate.folder}/{folder}"
        for name in sorted(os.listdir(where)) if os.path.isdir(where) else []:
            told = TOLD.fullmatch(RT.rtlib.text_of(f"{where}/{name}").partition("\n")[0])
            print(f"| {crate.name} | {' | '.join(told.groups()) if told else f'{name} | | '} |")


def main():
    words = argparse.ArgumentParser()
    words.add_argument("--jobs", type=int, default=os.cpu_count() or 1)
    words.add_argument("--folder", default="edits")
    words.add_argument("--times", action="store_true")
    words.add_argument("--harmless", action="store_true")
    words.add_argument("--table", action="store_true")
    words.add_argument("crates", nargs="*")
    given = words.parse_args()
    root = os.getcwd()
    crates = [it for it in RT.rtlib.crates_below(root) if not given.crates or it.name in given.crates]
    if given.table:
        print_table(crates, given.folder)
        return 0
    for name in stale(crates):
        print(f"edits: {name} isn't built from these sources: rt all check, or rt ci in a clone of its own, builds it")
        print("edits: 0 passed, 1 failed")
        return 2
    counted = lambda crate: len(os.listdir(f"{crate.folder}/{given.folder}")) if os.path.isdir(f"{crate.folder}/{given.folder}") else 0
    crates.sort(key=counted, reverse=True)
    passed = failed = 0
    with concurrent.futures.ThreadPoolExecutor(given.jobs) as pool:
        running = {pool.submit(judge, crate, given.folder, given.harmless): crate for crate in crates}
        for done in concurrent.futures.as_completed(running):
            for name, refused, text in done.result():
                passed, failed = passed + refused, failed + (not refused)
                print(f"edit {running[done].name}/{name}: {text}"[:400], flush=True)
            if given.times:
                print_times(running[done].name)
    print(f"edits: {passed} passed, {failed} failed")
    return 1 if failed else 0


if __name__ == "__main__":
    sys.exit(main())
