#!/usr/bin/env python3
"""Tells of which sources a program was made, by a stamp beside it: the sum of all source files, that of the program, and the kit.

    made.py run PROGRAM COMMAND..    runs a command that makes the program. Where it succeeds and no source changed meanwhile, the stamp is left
    made.py check PROGRAM            fails where the program isn't of the sources that are here, and says why

A sum is of what files hold: a checkout, or a file that was touched, changes nothing.
"""
import hashlib
import os
import subprocess
import sys

from definitions import TOP

PARTS = ("src", "specs", "proofs", "c")


def sum_of(path):
    with open(path, "rb") as file:
        return hashlib.sha256(file.read()).hexdigest()


def sources():
    """The paths of all that programs are made of, in their order."""
    found = ["crates.txt", "HANDLES"]
    for crate in os.listdir(os.path.join(TOP, "crates")):
        for part in PARTS:
            for at, _, names in os.walk(os.path.join(TOP, "crates", crate, part)):
                found += [os.path.relpath(os.path.join(at, name), TOP) for name in names]
    return sorted(found)


def sum_of_sources():
    whole = hashlib.sha256()
    for path in sources():
        whole.update(f"{sum_of(os.path.join(TOP, path))}  {path}\n".encode())
    return whole.hexdigest()


def kit():
    return subprocess.run(["rt", "version"], stdout=subprocess.PIPE, text=True, check=True).stdout.strip()


def stamp(program, of_sources):
    return f"sources {of_sources}\nprogram {sum_of(program)}\nkit {kit()}\n"


def run(program, command):
    kept, before = f"{program}.made", sum_of_sources()
    if os.path.exists(kept):
        os.remove(kept)
    status = subprocess.run(command).returncode
    if status == 0 and os.path.isfile(program) and sum_of_sources() == before:
        with open(kept, "w", encoding="utf-8") as file:
            file.write(stamp(program, before))
    return status if status >= 0 else 128 - status


def what_is_wrong(program):
    """Why the program isn't known to be of the sources that are here, or nothing."""
    if not os.path.isfile(program):
        return "it isn't there"
    if not os.path.isfile(f"{program}.made"):
        return "nothing says of which sources it is"
    with open(f"{program}.made", encoding="utf-8") as file:
        kept = file.read().splitlines()
    here = stamp(program, sum_of_sources()).splitlines()
    for line, wanted, why in zip(kept + [""] * len(here), here, ("it is of other sources", "it was changed since it was made", "it is of another kit")):
        if line != wanted:
            return why
    return None


def main():
    verb, program, *command = sys.argv[1:]
    if verb == "run":
        return run(program, command)
    why = what_is_wrong(program)
    if why:
        print(why)
    return 1 if why else 0


if __name__ == "__main__":
    sys.exit(main())
