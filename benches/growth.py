#!/usr/bin/env python3
"""Counts what each command costs by the size of what it is given: a quarter, half and the whole of the largest, in instructions of the host,
and the most memory that it takes. What grows faster than linearly shows as more than twice its neighbour. Needs valgrind and GNU's `time`.

    growth.py [--jobs N] [--only WORD] [PROGRAM]

PROGRAM is crates/zpc/out/zpc if not given. Only the rows whose names begin with WORD are counted, where it is given. Stories are made by the
scripts of this folder and of tests/program.
"""
import argparse
import os
import re
import struct
import subprocess
import sys
import tempfile
from concurrent.futures import ThreadPoolExecutor

HERE = os.path.dirname(os.path.abspath(__file__))
sys.path.insert(0, os.path.join(HERE, "..", "tests", "program"))

import hostile
import sizes
from calls import RET_POPPED, call_with, deep, files, routine
from plays import PUSH
from samples import CODE, DEFAULTS, DICTIONARY, NEW_LINE, NOP, QUIT, STATIC, certificate, changed, interval, printed, story, text, word
from saves import RESTORE, SAVE

PARTS = (1 / 4, 1 / 2, 1)
LONGEST = 131070


def host(words, folder):
    """The host's instructions of a whole run in a folder, of which the file `typed` is the input."""
    command = ["valgrind", "--tool=callgrind", "--callgrind-out-file=calls", *words]
    with open(os.path.join(folder, "typed"), "rb") as typed:
        run = subprocess.run(command, cwd=folder, stdin=typed, stdout=subprocess.DEVNULL, stderr=subprocess.PIPE, check=False)
    found = re.search(rb"Collected : (\d+)", run.stderr)
    if not found or b"failed" in run.stderr or b"fault" in run.stderr:
        sys.exit(f"{' '.join(words)}: {run.stderr.decode()}")
    return int(found[1])


def peak(words, folder):
    """The most memory that a run takes, in MB of 1,000,000 bytes, by GNU's `time`: what a child of this process takes at least is what this
    process has."""
    with open(os.path.join(folder, "typed"), "rb") as typed:
        command = ["time", "-f", "%M", "-o", "peak", *words]
        subprocess.run(command, cwd=folder, stdin=typed, stdout=subprocess.DEVNULL, stderr=subprocess.DEVNULL, check=False)
    with open(os.path.join(folder, "peak"), encoding="utf-8") as file:
        return int(file.read().split()[-1]) * 1024 / 1e6


def nops(part):
    """A story of one-byte instructions, each of which is listed."""
    places = range(CODE, int(LONGEST * part))
    made = story(NOP * (len(places) - 1) + QUIT)
    return {"story": made, "certificate": certificate(made, places)}


def stacks(part):
    """The same with a full stack at each place but the first two."""
    places = range(CODE, int(LONGEST * part))
    made = story(NEW_LINE + QUIT + NOP * (len(places) - 3) + QUIT)
    return {"story": made, "certificate": certificate(made, places, stacks=dict.fromkeys(places[2:], interval(0, 0) * 64))}


def overlapping(part):
    """Branches to texts of which each is a part of the one before."""
    return {"story": sizes.branches_to_prints(1, int(61000 * part))[0]}


def longest_with(kind):
    """The longest of a kind of hostile.py, made shorter."""

    def made(part):
        whole, routines = hostile.LONGEST, hostile.ROUTINES
        hostile.LONGEST, hostile.ROUTINES = int(whole * part) // 2 * 2, int(routines * part)
        try:
            return dict(zip(("story", "certificate"), hostile.KINDS[kind]()))
        finally:
            hostile.LONGEST, hostile.ROUTINES = whole, routines

    return made


def routines(part):
    """Constant calls of as many routines."""
    count = int(18000 * part)
    first = CODE + 5 * count + 1
    first += first % 2
    code = b"".join(b"\xe0\x3f" + word((first + 2 * it) // 2) + b"\x11" for it in range(count)) + QUIT
    return {"story": story(code.ljust(first - CODE, b"\0") + b"\0\xb0" * count)}


def saved(part):
    """A save, and then restores of it, of so much dynamic memory."""
    room = int(64700 * part)
    made, start = story(SAVE + RESTORE + QUIT, room=room), CODE + room
    return {"story": made, "certificate": certificate(made, [start, start + 2, start + 4])}


def frames(part):
    """A save within so many frames of 15 locals and 20 words each, and then restores of it."""
    levels, place, locals_ = int(1023 * part), CODE + 30, list(range(1, 16))
    rest = [(it, it) for it in locals_[1:]]
    before, after, one = [(1, 1023), *rest], [(0, 1022), *rest], interval(1, 1)
    # at level 0 it goes over what follows, to the save
    skipped = 4 + 20 * 3 + 6 + 1
    lines = [(b"\xa0\x01" + struct.pack(">H", 0x8000 | skipped + 2), [(0, 1023), *rest]), (b"\x55\x01\x01\x01", before)]
    lines += [(PUSH + b"\x01", after, one * it) for it in range(20)]
    lines += [(call_with(place, 0, 1), after, one * 20), (RET_POPPED, after, one * 20 + interval(15, 15))]
    lines += [(SAVE, [(0, 0), *rest]), (RESTORE, [(0, 0), *rest]), (b"\xab\x0f", [(0, 0), *rest])]
    return files(deep(levels, place), [routine(place, locals_, (15, 15), *lines)])


def dictionary(part):
    """Lines of 127 words, against a dictionary of so many."""
    buffer, parse, room = STATIC, STATIC + 300, 1400
    count = int(15600 * part)
    entries = b"".join(struct.pack(">HH", 2 * it, 0x8000) for it in range(count))
    start = CODE + room + len(entries)
    code = b"\xe4\x0f" + word(buffer) + word(parse) + b"\x8c\xff\xf9"
    made = changed(changed(story(entries + code, room=room, first=CODE + len(entries)), buffer, 255), parse, 255)
    made = changed(made, DICTIONARY + room, 0, 4, *word(count))
    listed = certificate(made, [start, start + 6], ranges=[(buffer, buffer), (parse, parse)])
    return {"story": made, "certificate": listed, "typed": (b" ".join([b"z"] * 127) + b"\n") * 20}


def properties(part):
    """An object's property list of so many bytes, gone over for a property that isn't there, for ever."""
    room = int(64000 * part)
    code = b"\x11\x01\x02\x10" + b"\x8c\xff\xfb"
    made = story(code, room=room)
    table = STATIC + 9
    entries = [0xE3, *bytes(8)] * ((room - 12) // 9)
    made = changed(made, STATIC, *bytes(7), *word(table), 0, *entries)
    return {"story": made}


def siblings(part):
    """So many children, of which each time the last is moved to the front."""
    first = 256 - int(254 * part)
    moves = b"".join(b"\x0e" + bytes([number, 1]) for number in range(255, first - 1, -1))
    table = STATIC + 9 * 255
    made = story(moves + b"\x8c" + struct.pack(">h", -len(moves) - 1), room=9 * 255 + 2)
    made = changed(made, STATIC, *(bytes(7) + word(table)) * 255)
    for number in range(first, 256):
        made = changed(made, STATIC + 9 * (number - 1) + 4, 1, number + 1 if number < 255 else 0, 0)
    return {"story": changed(made, STATIC + 6, first)}


def expanding(part):
    """A text in which abbreviations stand for 91 letters each, printed."""
    line = "abcdefghijklmnopqrstuvwxyz abcdefghijklmnopqrstuvwxyz abcdefghijklmnopqrstuvwxyz abcdefghijk"
    code = b"\xb2" + text([1, 0] * int(90000 * part)) + QUIT
    place = CODE + len(code) + len(code) % 2
    made = story(code.ljust(place - CODE, b"\0") + printed(line)[1:], abbreviations=[place] * 96)
    return {"story": made, "certificate": certificate(made, [CODE, CODE + len(code) - 1])}


ACCEPTED, CHECKED = ["story", "certificate"], ["story"]



def saving(part):
    """How many steps `frames` makes up to its first restore: a call, in each level a test, a count, 20 pushes and a call, and at the end a test
    and the save."""
    return 1 + 23 * int(1023 * part) + 2


# Each row: what is made of a part, the words, and, where it is of a step, the budgets between which it is counted and how many times that
# step is made between them.
ROWS = {
    "list: instructions of a byte": (nops, ["list", "story"], None),
    "list: texts that overlap": (overlapping, ["list", "story"], None),
    "list: routines": (routines, ["list", "story"], None),
    "check: instructions of a byte": (nops, ["check", *ACCEPTED], None),
    "check: full stacks": (stacks, ["check", *ACCEPTED], None),
    "check: texts that overlap": (longest_with("prints"), ["check", *ACCEPTED], None),
    "check: abbreviations that overlap": (longest_with("both"), ["check", *ACCEPTED], None),
    "check: calls of any routine": (longest_with("calls"), ["check", *ACCEPTED], None),
    "find: instructions of a byte": (nops, ["find", "story", "found"], None),
    "find: routines": (routines, ["find", "story", "found"], None),
    "play: start": (nops, ["play", "--budget", "1", *CHECKED], None),
    "play: start by a certificate": (nops, ["play", "--budget", "1", *ACCEPTED], None),
    "play: a text of abbreviations": (expanding, ["play", *CHECKED], None),
    "step: save of memory": (saved, ["play", "--save", "kept", *ACCEPTED], (0, 1, 1)),
    "step: restore of memory": (saved, ["play", "--save", "kept", *ACCEPTED], (1, 101, 100)),
    "step: restore of memory, checked": (saved, ["play", "--save", "kept", *CHECKED], (1, 101, 100)),
    "step: restore of frames": (frames, ["play", "--save", "kept", *ACCEPTED], lambda part: (saving(part), saving(part) + 100, 100)),
    "step: restore of frames, checked": (frames, ["play", "--save", "kept", *CHECKED], lambda part: (saving(part), saving(part) + 100, 100)),
    "step: sread": (dictionary, ["play", *ACCEPTED], (0, 60, 20)),
    "step: sread, checked": (dictionary, ["play", *CHECKED], (0, 60, 20)),
    "step: get_prop of a list": (properties, ["play", *CHECKED], (0, 200, 100)),
    "step: insert_obj of the last child": (siblings, ["play", *CHECKED], lambda part: (0, 2 * int(254 * part) + 2, 2 * int(254 * part))),
}


def counted(program, row, part):
    """What a row costs at a part of the largest, in instructions of the host, and the MB that it takes."""
    make, words, between = row
    with tempfile.TemporaryDirectory(prefix="zpc-") as folder:
        for name, contents in {"typed": b"", **make(part)}.items():
            with open(os.path.join(folder, name), "wb") as file:
                file.write(contents)
        run = lambda budget: [program, *words[:1], *([] if budget is None else ["--budget", str(budget)]), *words[1:]]
        if between is None:
            return host(run(None), folder), peak(run(None), folder)
        few, many, times = between(part) if callable(between) else between
        return (host(run(many), folder) - host(run(few), folder)) / times, peak(run(many), folder)


def main():
    parser = argparse.ArgumentParser()
    parser.add_argument("--jobs", type=int, default=os.cpu_count())
    parser.add_argument("--only", default="")
    parser.add_argument("program", nargs="?", default=os.path.join(HERE, "..", "crates", "zpc", "out", "zpc"))
    words = parser.parse_args()
    program = os.path.abspath(words.program)
    if not os.access(program, os.X_OK):
        sys.exit(f"there is no program {program}: (cd crates/zpc && rt run) builds it")
    names = [name for name in ROWS if name.startswith(words.only)]
    with ThreadPoolExecutor(words.jobs) as pool:
        tasks = {name: [pool.submit(counted, program, ROWS[name], part) for part in PARTS] for name in names}
        print("| Of the largest | a quarter | half | whole | MB |\n|---|---|---|---|---|", flush=True)
        for name, parts in tasks.items():
            costs = [it.result() for it in parts]
            print(f"| {name} | " + " | ".join(f"{cost:,.0f}" for cost, _ in costs) + f" | {costs[-1][1]:.1f} |", flush=True)


if __name__ == "__main__":
    main()
