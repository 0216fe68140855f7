#!/usr/bin/env python3
"""Counts the processor time of the gate, and writes it into docs/GATE.md.

    minutes.py run FIGURES PART COMMAND..    runs a command as a part of the gate, and adds its seconds to the file FIGURES
    minutes.py write FIGURES DOCUMENT        puts the figures into the document, between two lines that begin with <!-- figures

Seconds are those of all processors together. The prover's are told by crate: its processes are looked at four times a second, so a
crate's figure may lack a quarter of a second for each of them. What is left of a part is its own line.
"""
import collections
import os
import re
import resource
import subprocess
import sys
import threading

PAUSE = 0.25
TICKS = os.sysconf("SC_CLK_TCK")
BUDGET = re.compile(r"(?m)^The budget is (\d+) processor minutes")


def stat_of(process):
    """The parent of a process and the seconds that it took, without those of its children."""
    with open(f"/proc/{process}/stat", encoding="ascii", errors="replace") as file:
        fields = file.read().rpartition(")")[2].split()
    return int(fields[1]), (int(fields[11]) + int(fields[12])) / TICKS


def crate_of(process):
    """The crate that a process proves or compiles."""
    with open(f"/proc/{process}/cmdline", encoding="utf-8", errors="replace") as file:
        words = file.read().split("\0")
    if not words[0].endswith("/rattle") or "--crate-name" not in words:
        return None
    return words[words.index("--crate-name") + 1] + (" (tests)" if "--test" in words else "")


def look(root, seen):
    """Notes how long the provers below a process have run."""
    parents, seconds = {}, {}
    for name in os.listdir("/proc"):
        try:
            if name.isdigit():
                parents[int(name)], seconds[int(name)] = stat_of(name)
        except OSError:
            continue
    for process, parent in parents.items():
        while parent not in (root, 0, 1) and parent in parents:
            parent = parents[parent]
        try:
            crate = crate_of(process) if parent == root else None
        except OSError:
            continue
        if crate:
            seen[process, crate] = max(seconds[process], seen.get((process, crate), 0))


def run(figures, part, command):
    seen, is_over = {}, threading.Event()

    def watch():
        while not is_over.wait(PAUSE):
            look(os.getpid(), seen)

    watcher = threading.Thread(target=watch)
    watcher.start()
    status = subprocess.run(command).returncode
    is_over.set()
    watcher.join()
    used = resource.getrusage(resource.RUSAGE_CHILDREN)
    by_crate = collections.Counter()
    for (_, crate), seconds in seen.items():
        by_crate[crate] += seconds
    by_crate["the rest"] = used.ru_utime + used.ru_stime - sum(by_crate.values())
    with open(figures, "a", encoding="utf-8") as file:
        for crate, seconds in by_crate.items():
            file.write(f"{part}\t{crate}\t{seconds:.1f}\n")
    return status if status >= 0 else 128 - status


def write(figures, document):
    table = collections.defaultdict(dict)
    with open(figures, encoding="utf-8") as file:
        for line in file:
            part, crate, seconds = line.rstrip("\n").split("\t")
            table[part][crate] = table[part].get(crate, 0) + float(seconds)
    whole = sum(sum(crates.values()) for crates in table.values())
    lines = ["", f"The last whole run took **{whole / 60:.1f} processor minutes** on {os.cpu_count()} cores.", ""]
    lines += ["| Part | Seconds | The dearest of it |", "|---|---|---|"]
    for part, crates in table.items():
        dearest = sorted(((seconds, crate) for crate, seconds in crates.items() if crate != "the rest" and seconds >= 1), reverse=True)
        told = ", ".join(f"{crate} {seconds:.0f}" for seconds, crate in dearest)
        lines.append(f"| {part} | {sum(crates.values()):.0f} | {told} |")
    with open(document, encoding="utf-8") as file:
        text = file.read()
    new, count = re.subn(r"(?s)(<!-- figures begin.*?-->\n).*?(<!-- figures end)", lambda it: it[1] + "\n".join(lines) + "\n\n" + it[2], text)
    if count == 1 and new != text:
        with open(document, "w", encoding="utf-8") as file:
            file.write(new)
    budget = BUDGET.search(text)
    print(f"the gate took {whole / 60:.1f} processor minutes{f' of {budget[1]}' if budget else ''}")


def main():
    verb, figures, *rest = sys.argv[1:]
    if verb == "run":
        return run(figures, rest[0], rest[1:])
    write(figures, rest[0])
    return 0


if __name__ == "__main__":
    sys.exit(main())
