#!/usr/bin/env python3
"""The number by which each altered save is refused, and each beginning of one, on both machines. What is wrong with it is worked out
here after the Quetzal standard and docs/MACHINE.md. From a save that both take they make up to 1,000 steps side by side: behind each
step they gave out the same and are in the same state, up to the same pause.

    restored.py CALLS

CALLS is the program that makes the libraries' calls one by one.
"""
import os
import struct
import sys
import tempfile

from altered import changes
from program import Count, Program
from samples import GLOBALS, STATIC, changed
from saves import SAVES, SAVES_LISTED, THAT_SAVE

SAVE_CODE = 0xB5
AT_RESTORE = 0x326  # where play awaits a save
MOST_AT_ONCE = 200  # saves that one process is handed

NOT_FORM, LENGTH, MISSING, TWICE, COMPRESSED, OTHER_STORY, MEMORY_LENGTH, FRAMES, PLACE, NOT_DESCRIBED = range(1, 11)

# ---- single bytes of the save: place, what is there then, what the session and what the checked machine answer, 0 where it goes on

BYTES = [
    ("a pad byte of 1", 33, 1, LENGTH, LENGTH),
    ("another release", 20, 1, OTHER_STORY, OTHER_STORY),
    ("a place before the save", 32, 0x24, PLACE, PLACE),
    ("a stack of a word that isn't there", 663, 1, FRAMES, FRAMES),
    ("a first frame with a local", 659, 1, FRAMES, FRAMES),
    ("a global that isn't 0", 106, 1, NOT_DESCRIBED, 0),
    ("another default of a property", 586, 1, NOT_DESCRIBED, 0),
    ("Flags 2", 59, 1, 0, 0),
]


def chunks_of(save):
    """The chunks behind the head, or None where a length or a pad byte doesn't fit (Q 8)."""
    found, at = [], 12
    while at < len(save):
        if at + 8 > len(save):
            return None
        name, (size,) = save[at : at + 4], struct.unpack(">I", save[at + 4 : at + 8])
        end = at + 8 + size
        if end + size % 2 > len(save) or (size % 2 and save[end]):
            return None
        found.append((name, save[at + 8 : end]))
        at = end + size % 2
    return found


def frames_of(data):
    """The stacks of the frames, the oldest first, or None where they are none that a story can have (Q 4)."""
    stacks, at = [], 0
    while at < len(data):
        if at + 8 > len(data):
            return None
        head, (height,) = data[at : at + 6], struct.unpack(">H", data[at + 6 : at + 8])
        end = at + 8 + 2 * (head[3] % 16) + 2 * height
        if head[3] > 15 or head[5] not in (0, 1, 3, 7) or end > len(data) or (not stacks and any(head)):
            return None
        stacks.append(height)
        at = end
    return stacks if 1 <= len(stacks) <= 4097 else None


def read(save, made):
    """Which number refuses the save, whatever machine it is for, or its memory, its place and the heights of its stacks."""
    if len(save) < 12 or save[:4] != b"FORM" or save[8:12] != b"IFZS":
        return NOT_FORM, None
    chunks = chunks_of(save)
    if struct.unpack(">I", save[4:8])[0] != len(save) - 8 or chunks is None or any(name == b"IFhd" and len(data) != 13 for name, data in chunks):
        return LENGTH, None
    names = [name for name, _ in chunks if name in (b"IFhd", b"UMem", b"CMem", b"Stks")]
    if not {b"IFhd", b"Stks"} <= set(names) or not {b"UMem", b"CMem"} & set(names) or names[0] != b"IFhd":
        return MISSING, None
    if any(names.count(name) > 1 for name in (b"IFhd", b"UMem", b"Stks")):
        return TWICE, None
    if b"CMem" in names:
        return COMPRESSED, None
    parts = dict(chunks)
    head, memory = parts[b"IFhd"], parts[b"UMem"]
    if head[:10] != made[2:4] + made[0x12:0x18] + made[0x1C:0x1E]:
        return OTHER_STORY, None
    if len(memory) != STATIC:
        return MEMORY_LENGTH, None
    stacks = frames_of(parts[b"Stks"])
    if stacks is None:
        return FRAMES, None
    return None, (memory, int.from_bytes(head[10:13], "big"), stacks)


def answers(save, made):
    """What the session and the checked machine answer, and memory as it is where both go on: a header as it was, but for Flags 2, of
    which two bits stay."""
    number, found = read(save, made)
    if number:
        return number, number, None
    memory, place, stacks = found
    flags = bytes([memory[0x10], memory[0x11] & ~3 | made[0x11] & 3])
    restored = made[:0x10] + flags + made[0x12:64] + memory[64:] + made[STATIC:]
    if not 1 <= place < len(made) or restored[place - 1] != SAVE_CODE:
        return PLACE, PLACE, None
    # the certificate says of each global that it is 0, and nothing changes the defaults of properties
    described = place - 1 == 0x324 and memory[GLOBALS:] == made[GLOBALS:STATIC] and stacks == [0]
    return (0, 0, restored) if described else (NOT_DESCRIBED, 0, None)


def lines(save, made):
    session, checked, memory = answers(save, made)
    told = [f"{session} {checked}"]
    if memory is not None:
        told.append(f"alike: NeedRestore at {AT_RESTORE}, memory {sum(memory) % 65536}")
    return told


def see(calls, count, cases):
    """What both machines answer of saves, with a name for each."""
    with tempfile.TemporaryDirectory(prefix="saves-") as room:
        for name, contents in [("story", SAVES), ("certificate", SAVES_LISTED), *((f"{it}", save) for it, (_, save) in enumerate(cases))]:
            with open(os.path.join(room, name), "wb") as file:
                file.write(contents)
        answer = calls.run_in(room, ["story", "certificate", *map(str, range(len(cases)))])
    told = answer.output.decode().splitlines()
    for name, save in cases:
        wanted = lines(save, SAVES)
        count.see(told[: len(wanted)] == wanted, f"{name}: {told[:len(wanted)]}, wanted was {wanted}")
        del told[: len(wanted)]
    count.see(answer.status == 0 and not told, f"{answer}, behind all {told}")


def main():
    calls = Program(sys.argv[1])
    count = Count("altered saves")
    assert len(THAT_SAVE) == 664
    for name, at, new, session, checked in BYTES:
        assert answers(changed(THAT_SAVE, at, new), SAVES)[:2] == (session, checked), name
    for length in range(664):
        assert answers(THAT_SAVE[:length], SAVES)[:2] == ((NOT_FORM,) * 2 if length < 12 else (LENGTH,) * 2), length
    cases = [("the save", THAT_SAVE), *((name, changed(THAT_SAVE, at, new)) for name, at, new, _, _ in BYTES), *changes(THAT_SAVE)]
    for at in range(0, len(cases), MOST_AT_ONCE):
        see(calls, count, cases[at : at + MOST_AT_ONCE])
    count.end()


if __name__ == "__main__":
    main()
