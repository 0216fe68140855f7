#!/usr/bin/env python3
"""Compares the program with the model on command lines that are drawn.

    run.py PROGRAM [COUNT] [SEED]

A difference is told with the seed and the number of its case, `run.py PROGRAM --case SEED-NUMBER FOLDER` writes the files of a case. Before
the last line it is told how often each fault, refusal and opcode was met.
"""
import collections
import concurrent.futures
import os
import sys
import tempfile

sys.path.append(os.path.join(os.path.dirname(os.path.abspath(__file__)), "../program"))

from answers import REASONS, answer
from draw import Case, Drawer
from instructions import OPCODES
from program import Program, shown

AT_ONCE = 2
MOST_TOLD = 20
LAST = {"F": 16, "L": 11, "U": 3, "K": 7, "S": 8, "I": 18, "Q": 9}  # K9 is beside them; K8 is want of memory
CODES = [f"{letter}{number}" for letter, last in LAST.items() for number in range(1, last + 1)] + ["K9", "N2"]


class Tally:
    """What passed and what failed, and how often what was met."""

    def __init__(self):
        self.passed, self.failed = 0, 0
        self.codes, self.opcodes, self.kinds = collections.Counter(), collections.Counter(), collections.Counter()

    def see(self, name, case, wanted, came):
        """Whether the answer is the one that was wanted, or enough was told."""
        if wanted == came:
            self.passed += 1
            return True
        self.failed += 1
        if self.failed <= MOST_TOLD:
            print(f"model: case {name}: {' '.join(case.words)}: {told(came)}; wanted was {told(wanted)}", flush=True)
        return self.failed > MOST_TOLD

    def end(self):
        print("model: met " + ", ".join(f"{it} {self.codes[it]}" for it in sorted(self.codes, key=by_number)))
        print("model: never met: " + (", ".join(it for it in [*CODES, *OPCODES] if not self.codes[it] and not self.opcodes[it]) or "none"))
        print("model: opcodes " + ", ".join(f"{it} {self.opcodes[it]}" for it in OPCODES))
        print("model: kinds " + ", ".join(f"{it} {many}" for it, many in sorted(self.kinds.items())))
        print(f"model: {self.passed} passed, {self.failed} failed")
        return 1 if self.failed or not self.passed else 0


def by_number(code):
    return (code[0], int(code[1:])) if code[1:].isdigit() else (code, 0)


def told(answer):
    status, output, errors, written = answer
    return f"status {status}, {shown(output)}, {shown(errors)}" + (f", written {shown(written)}" if written is not None else "")


def ran(program, case):
    """What the program answers: its exit status, its output, its errors, and the file that it writes if there is one."""
    with tempfile.TemporaryDirectory(prefix="zpc-") as room:
        for name, contents in case.files.items():
            with open(os.path.join(room, name), "wb") as file:
                file.write(contents)
        came = program.run_in(room, case.words, typed=case.typed)
        path, written = os.path.join(room, case.writes), None
        if os.path.exists(path):
            with open(path, "rb") as file:
                written = file.read()
    return came.status, came.output, came.errors, written


def smaller(program, case):
    """A case with less to it on which program and model still differ, tried greedily."""
    tally, tries = Tally(), 40
    for made in iter(lambda: next((it for it in lesser(case) if tries and differs(program, it, tally)), None), None):
        case, tries = made, tries - 1
    return case


def differs(program, case, tally):
    came = ran(program, case)
    return answer(case, tally, came) != came


def lesser(case):
    """Cases with a smaller budget, with nothing typed, or without an option."""
    words = case.words
    if "--budget" in words:
        at = words.index("--budget") + 1
        for less in {int(words[at]) // 2, int(words[at]) - 1}:
            if 0 <= less < int(words[at]):
                yield Case([*words[:at], str(less), *words[at + 1 :]], case.files, case.typed)
    if case.typed:
        yield Case(words, case.files)
        yield Case(words, case.files, case.typed.partition(b"\n")[0])
    for option in ("--status", "--framed-status", "--tell", "--lenient", "--plain", "--no-save", "--commands"):
        if option in words:
            yield Case([it for it in words if it != option], case.files, case.typed)


def compared(path, count, seed):
    program, tally, drawer = Program(path), Tally(), Drawer(seed, Program(path))
    REASONS.update((code, program.run(["explain", code]).output.partition(b"\n")[0]) for code in CODES if code[0] in "FI")
    with concurrent.futures.ThreadPoolExecutor(AT_ONCE) as pool:
        for number, case, came in pool.map(lambda it: (it, *one(program, drawer.case(it))), range(count)):
            wanted = answer(case, tally, came)
            if not tally.see(f"{seed}-{number}", case, wanted, came):
                print(f"model: the same of {' '.join(smaller(program, case).words)}", flush=True)
    return tally.end()


def one(program, case):
    return case, ran(program, case)


def written(path, name, folder):
    """Writes the files of a case into a folder, and tells its words."""
    seed, number = name.rsplit("-", 1)
    case = Drawer(seed, Program(path)).case(int(number))
    for file, contents in [*case.files.items(), ("typed", case.typed)]:
        with open(os.path.join(folder, file), "wb") as out:
            out.write(contents)
    print(" ".join(case.words))
    return 0


def main():
    path, *rest = sys.argv[1:]
    if rest[:1] == ["--case"]:
        return written(path, *rest[1:])
    count, seed = [*rest, *["2000", "1"][len(rest) :]]
    return compared(path, int(count), seed)


if __name__ == "__main__":
    sys.exit(main())
