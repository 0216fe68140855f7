#!/usr/bin/env python3
"""Counts what stories cost, in instructions of the host, and prints tables.

    suite.py [--jobs N] [--only WORD] [PROGRAM]

PROGRAM is crates/zpc/out/zpc if not given. The first table has the host's instructions for each instruction of a story, by valgrind: on the
session, on the fully checked machine, and on dfrotz where it is installed. Each story goes round a loop a few times and many times; of the
difference that of an empty loop is taken off, so that reading, checking, starting and counting are none of it. The second has stories that
Inform compiled, the third the lines of a player, the fourth whole calls, also by the clock (the least of five runs). Only the rows whose
names begin with WORD are counted, where it is given.
"""
import argparse
import functools
import os
import re
import shutil
import subprocess
import sys
import tempfile
import time
from concurrent.futures import ThreadPoolExecutor

import arrays
import compiled
import hostile
import lines
import loop
import objects
import saves

HERE = os.path.dirname(os.path.abspath(__file__))
DFROTZ = shutil.which("dfrotz", path=os.environ.get("PATH", "") + ":/usr/games")
FEW, MANY = 50, 550  # rounds

ROWS = {kind: functools.partial(loop.made, kind) for kind in [*loop.KINDS, *loop.ROUTINES]}
for module in arrays, objects:
    ROWS.update({f"{module.__name__}: {kind}": functools.partial(module.made, kind, 20) for kind in module.KINDS if kind != "all"})


def host(words, stdin=b""):
    """The host's instructions of a whole run."""
    with tempfile.TemporaryDirectory() as work:
        command = ["valgrind", "--tool=callgrind", f"--callgrind-out-file={work}/calls", *words]
        run = subprocess.run(command, input=stdin, stdout=subprocess.DEVNULL, stderr=subprocess.PIPE, check=False)
    found = re.search(rb"Collected : (\d+)", run.stderr)
    if not found or b"refused" in run.stderr or b"fault" in run.stderr:
        sys.exit(f"{' '.join(words)}: {run.stderr.decode()}")
    return int(found[1])


def written(folder, *parts):
    """The names of files of a folder that now have these contents."""
    names = [os.path.join(folder, name) for name in ("story.z3", "certificate")]
    for name, contents in zip(names, parts):
        with open(name, "wb") as file:
            file.write(contents)
    return names


def players(program, story, certificate):
    """How each machine is told to play a story: the session, the checked machine, and dfrotz."""
    yield [program, "play", story, certificate]
    yield [program, "play", story]
    if DFROTZ:
        yield [DFROTZ, "-m", "-q", story]


def round_of(program, made):
    """What a round costs on each machine, of stories that are made for a number of rounds, and how many instructions it plays."""
    counts = []
    for rounds in FEW, MANY:
        with tempfile.TemporaryDirectory() as folder:
            story, certificate, played, *typed = made(rounds)
            names = written(folder, story, certificate)
            counts.append([host(words, *typed) for words in players(program, *names)])
    return [(many - few) / (MANY - FEW) for few, many in zip(*counts)], played


def row(name, figures):
    """A line of a table, with a dash for what isn't installed."""
    return f"{name:<18}" + "".join(f"{it:>12.1f}" for it in figures) + ("" if DFROTZ else f"{'-':>12}")


def table(program, pool, rows):
    """The names of the rows, each with what its round costs beyond an empty one, and how many instructions it plays beyond that."""
    (empty, least), *counted = pool.map(lambda made: round_of(program, made), [ROWS["empty"], *rows.values()])
    for name, (cost, played) in zip(rows, counted):
        yield name, [a - b for a, b in zip(cost, empty)], played - least


def instructions(program, pool, word):
    """The first table."""
    print(f"{'of one':<18}{'session':>12}{'checked':>12}{'dfrotz':>12}", flush=True)
    rows = {name: made for name, made in ROWS.items() if name.startswith(word) and name != "empty"}
    for name, cost, played in table(program, pool, rows):
        print(row(name, [it / played for it in cost]), flush=True)


def found(program, folder, story):
    """The names of files of a folder that have a story, and what `find` makes for it, with the milliseconds that it took."""
    names = written(folder, story, b"")
    return names, clock([program, "find", *names])


def rounds_of(program, name):
    """What an instruction of a story that Inform compiled costs on each machine, and the milliseconds that `find` takes."""
    counts, steps = [], []
    for rounds in 1, 11:
        with tempfile.TemporaryDirectory() as folder:
            names, took = found(program, folder, compiled.made(name, rounds))
            counts.append([host(words) for words in players(program, *names)])
            steps.append(compiled.steps(program, names[0]))
    return [(many - few) / (steps[1] - steps[0]) for few, many in zip(*counts)], took


def stories(program, pool, word):
    """The second table: what an instruction of a whole story costs."""
    print(f"\n{'of a story':<18}{'session':>12}{'checked':>12}{'dfrotz':>12}{'find, ms':>12}", flush=True)
    names = [name for name in compiled.NAMES if name.startswith(word)]
    for name, (cost, took) in zip(names, pool.map(lambda name: rounds_of(program, name), names)):
        print(row(name, cost) + f"{took:>12.1f}", flush=True)


def reading(program, pool):
    """The third table: what a line costs that is read and answered, and what its answer alone."""
    print(f"\n{'of a line':<18}{'session':>12}{'checked':>12}{'dfrotz':>12}", flush=True)
    (_, both, _), (_, alone, _) = table(program, pool, {kind: functools.partial(lines.made, kind) for kind in ("read", "answer")})
    print(row("with answer", both))
    print(row("answer alone", alone))
    print(row("ratio", [a / b for a, b in zip(both, alone)]), flush=True)


def clock(words):
    """The least of the milliseconds that a whole run took."""
    took = []
    for _ in range(5):
        begun = time.perf_counter()
        subprocess.run(words, stdin=subprocess.DEVNULL, stdout=subprocess.DEVNULL, stderr=subprocess.DEVNULL, check=False)
        took.append(1000 * (time.perf_counter() - begun))
    return min(took)


def whole_calls(program, folder):
    """Names of whole calls, with two commands each, whose difference is told, and by how much they differ."""
    for kind, (made, count) in {"loads, stores": (arrays, 20000), "objects": (objects, 20000)}.items():
        names = written(tempfile.mkdtemp(dir=folder), *made.made("all", count, 0)[:2])
        yield f"check of {count:,} {kind}", [program, "check", *names], None, 1
    for kind in hostile.KINDS:
        names = written(tempfile.mkdtemp(dir=folder), *hostile.KINDS[kind]())
        yield f"check of the longest, {kind}", [program, "check", *names], None, 1
        if kind == "nops":
            yield "start of the longest", [program, "play", names[0], "--budget", "1"], None, 1
    story, certificate = written(tempfile.mkdtemp(dir=folder), *saves.made())
    for name, words in ("session", [story, certificate]), ("checked", [story]):
        played = [program, "play", *words, "--save", os.path.join(folder, name), "--budget"]
        yield f"restore, {name}", [*played, "5001"], [*played, "1"], 5000


def calls(program, word):
    """The fourth table: whole calls."""
    print(f"\n{'of a whole call':<34}{'host':>14}{'ms':>9}")
    with tempfile.TemporaryDirectory() as folder:
        for name, many, few, count in whole_calls(program, folder):
            if name.startswith(word):
                less = [of(few) if few else 0 for of in (host, clock)]
                figures = [(of(many) - it) / count for of, it in zip((host, clock), less)]
                print(f"{name:<34}{figures[0]:>14,.0f}{figures[1]:>9.2f}", flush=True)


def main():
    parser = argparse.ArgumentParser()
    parser.add_argument("--jobs", type=int, default=os.cpu_count())
    parser.add_argument("--only", default="")
    parser.add_argument("program", nargs="?", default=os.path.join(HERE, "..", "crates", "zpc", "out", "zpc"))
    words = parser.parse_args()
    if not os.access(words.program, os.X_OK):
        sys.exit(f"there is no program {words.program}: (cd crates/zpc && rt run) builds it")
    with ThreadPoolExecutor(words.jobs) as pool:
        instructions(words.program, pool, words.only)
        stories(words.program, pool, words.only)
        if "line".startswith(words.only):
            reading(words.program, pool)
    calls(words.program, words.only)


if __name__ == "__main__":
    main()
