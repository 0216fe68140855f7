"""Runs of `unpack`: saves of compressed memory, packed here after the Quetzal standard (Q 3) in several ways, come out as the plain ones that they
were packed of, byte for byte; and what can't be unpacked is told by the lowest number that is worked out here."""
import os
import struct
import tempfile

from altered import changes
from program import Answer, side_by_side
from samples import STATIC, changed
from saves import DEEP_SAVE, FIRST_FRAME, INSIDE, INSIDE_FRAME, ITS_SAVE, QUITS, QUITS_SAVE, RESTORES, are_frames, chunk, chunks_of, saved

MOST_OF_A_RUN = 256


def runs(difference, ends_short):
    """Memory's difference from the story's as `CMem` has it: a 0 and how many more there are for zeros. The last zeros may be left out."""
    packed, at = bytearray(), 0
    if ends_short:
        difference = difference.rstrip(b"\0")
    while at < len(difference):
        if difference[at]:
            packed.append(difference[at])
            at += 1
            continue
        behind = difference[at : at + MOST_OF_A_RUN].lstrip(b"\0")
        zeros = len(difference[at : at + MOST_OF_A_RUN]) - len(behind)
        packed += bytes([0, zeros - 1])
        at += zeros
    return bytes(packed)


def one_by_one(difference):
    """The same with a run for each zero."""
    return b"".join(bytes([it]) if it else b"\0\0" for it in difference)


def parts_of(save):
    return dict(chunks_of(save))


def form(*chunks):
    inside = b"".join(chunk(name, data) for name, data in chunks)
    return b"FORM" + struct.pack(">I", len(inside) + 4) + b"IFZS" + inside


def difference_of(save, story):
    return bytes(a ^ b for a, b in zip(parts_of(save)[b"UMem"], story))


def packed(save, story):
    """A save as other interpreters keep it."""
    parts = parts_of(save)
    return form((b"IFhd", parts[b"IFhd"]), (b"CMem", runs(difference_of(save, story), True)), (b"Stks", parts[b"Stks"]))


def ways(save, story):
    """A save packed in several ways."""
    parts, difference = parts_of(save), difference_of(save, story)
    head, stacks, short = (b"IFhd", parts[b"IFhd"]), (b"Stks", parts[b"Stks"]), (b"CMem", runs(difference, True))
    yield "as others do", form(head, short, stacks)
    yield "to the end of memory", form(head, (b"CMem", runs(difference, False)), stacks)
    yield "with a run for each zero", form(head, (b"CMem", one_by_one(difference)), stacks)
    yield "with the stacks first", form(head, stacks, short)
    yield "with other chunks", form((b"AUTH", b"somebody"), head, (b"IntD", b"odd"), short, (b"ANNO", b""), stacks, (b"(c) ", b"x"))


CHANGED = bytes(it ^ (at % 7 == 0) * 85 for at, it in enumerate(RESTORES[:STATIC]))
SAVES = [
    ("a save that changes nothing", QUITS, QUITS_SAVE),
    ("a save", RESTORES, ITS_SAVE),
    ("a save of much that is changed", RESTORES, saved(RESTORES, 0x326, memory=CHANGED)),
    ("a save within routines", RESTORES, DEEP_SAVE),
    ("a save with a stack", INSIDE, saved(INSIDE, 0x33A, frames=FIRST_FRAME + INSIDE_FRAME)),
]
HIS = packed(saved(RESTORES, 0x326, memory=changed(RESTORES, 64, 0, 3)[:STATIC]), RESTORES)


def unpacked(data, story):
    """Dynamic memory, or the number of what is wrong with a `CMem`."""
    difference, at = bytearray(), 0
    while at < len(data):
        if data[at] == 0 and at + 1 == len(data):
            return 7
        difference += bytes(data[at + 1] + 1) if data[at] == 0 else data[at : at + 1]
        at += 2 if data[at] == 0 else 1
    dynamic = int.from_bytes(story[14:16], "big")
    return bytes(a ^ b for a, b in zip(story[:dynamic], difference.ljust(dynamic, b"\0"))) if len(difference) <= dynamic else 8


def plain_of(file, story):
    """What a file is unpacked to, or the number of the lowest C that stands in the way."""
    if len(file) < 12 or file[:4] != b"FORM" or file[8:12] != b"IFZS":
        return 1
    chunks = chunks_of(file) if int.from_bytes(file[4:8], "big") + 8 == len(file) else None
    if chunks is None:
        return 2
    names = [name for name, _ in chunks if name in (b"IFhd", b"UMem", b"CMem", b"Stks")]
    memories = [it for it in names if it in (b"UMem", b"CMem")]
    if names[:1] != [b"IFhd"] or b"Stks" not in names or not memories:
        return 3
    if len(memories) > 1 or names.count(b"IFhd") > 1 or names.count(b"Stks") > 1:
        return 4
    data = dict(chunks)
    if b"UMem" in data:
        return 5
    if data[b"IFhd"][:10] != story[2:4] + story[18:24] + story[28:30]:
        return 6
    memory = unpacked(data[b"CMem"], story)
    # that it is cut off is told before that it is too long
    if memory in (7, 8):
        return memory
    if not are_frames(data[b"Stks"]):
        return 9
    return form((b"IFhd", data[b"IFhd"]), (b"UMem", memory), (b"Stks", data[b"Stks"]))


def wrong():
    """Files that can't be unpacked, by what is wrong."""
    parts = parts_of(HIS)
    head, memory, stacks = (b"IFhd", parts[b"IFhd"]), (b"CMem", parts[b"CMem"]), (b"Stks", parts[b"Stks"])
    whole = runs(bytes(STATIC), False)
    yield "nothing", b"", 1
    yield "a plain save", ITS_SAVE, 5
    yield "no header", form(memory, stacks), 3
    yield "the header last", form(memory, stacks, head), 3
    yield "no memory", form(head, stacks), 3
    yield "no stacks", form(head, memory), 3
    yield "two memories", form(head, memory, memory, stacks), 4
    yield "both memories", form(head, memory, (b"UMem", RESTORES[:STATIC]), stacks), 4
    yield "two headers", form(head, head, memory, stacks), 4
    yield "another release", form((b"IFhd", b"\0\2" + head[1][2:]), memory, stacks), 6
    yield "a run that is cut off", form(head, (b"CMem", b"\x01\0"), stacks), 7
    yield "one byte too many", form(head, (b"CMem", whole + b"\x01"), stacks), 8
    yield "one zero too many", form(head, (b"CMem", whole + b"\0\0"), stacks), 8
    yield "too long and cut off", form(head, (b"CMem", whole + b"\0\0\0"), stacks), 7
    yield "no frames", form(head, memory, (b"Stks", b"")), 9
    yield "a first frame with a local", form(head, memory, (b"Stks", b"\0\0\0\1" + bytes(6))), 9
    yield "a frame of which a part is missing", form(head, memory, (b"Stks", FIRST_FRAME + INSIDE_FRAME[:-1])), 9
    yield "too many frames", form(head, memory, (b"Stks", FIRST_FRAME * 4098)), 9


# ---- plays: what stands in OUT before, the words, the answer, what stands in OUT then, where that changes

DONE = Answer(0, b"", b"")
PLAIN = plain_of(HIS, RESTORES)
OCCUPIED = Answer(1, b"", b"refused: N2\n")
FILES = [
    ("no file", None, ["story", "his", "out"], DONE, PLAIN),
    ("an empty file", b"", ["story", "his", "out"], DONE, PLAIN),
    ("an old save", ITS_SAVE, ["story", "his", "out"], DONE, PLAIN),
    ("something else", b"text", ["story", "his", "out"], OCCUPIED, b"text"),
    ("something else, with --force", b"text", ["--force", "story", "his", "out"], DONE, PLAIN),
    ("the save itself", HIS, ["story", "out", "out"], DONE, PLAIN),
    ("the story itself", RESTORES, ["out", "his", "out"], OCCUPIED, RESTORES),
    ("an old save, where the save is missing", ITS_SAVE, ["story", "none", "out"], Answer(4, b"", b"failed: file\n"), ITS_SAVE),
    ("an old save, where the save is a folder", ITS_SAVE, ["story", ".", "out"], Answer(4, b"", b"failed: file\n"), ITS_SAVE),
    ("an old save, where the story is missing", ITS_SAVE, ["none", "his", "out"], Answer(4, b"", b"failed: file\n"), ITS_SAVE),
    ("an old save, where the story is none", ITS_SAVE, ["his", "his", "out"], Answer(1, b"", b"refused: L1\n"), ITS_SAVE),
    ("an old save, where the story is none and the save is missing", ITS_SAVE, ["his", "none", "out"], Answer(1, b"", b"refused: L1\n"), ITS_SAVE),
    ("something else, where the story is missing", b"text", ["none", "his", "out"], OCCUPIED, b"text"),
    ("an old save, where the save is the story", ITS_SAVE, ["story", "story", "out"], Answer(1, b"", b"refused: C1\n"), ITS_SAVE),
    ("an old save, where that is the save", ITS_SAVE, ["story", "out", "out"], Answer(1, b"", b"refused: C5\n"), ITS_SAVE),
    ("no file, and none is made in no folder", None, ["story", "his", "none/out"], Answer(4, b"", b"failed: file\n"), None),
]


def answered(program, story, files, words):
    """The answer, and what is then in OUT, and whether all other files are as they were."""
    with tempfile.TemporaryDirectory(prefix="unpack-") as room:
        held = {"story": story, **files}
        for name, contents in held.items():
            with open(os.path.join(room, name), "wb") as file:
                file.write(contents)
        answer = program.run_in(room, ["unpack", *words])
        left = {}
        for name in os.listdir(room):
            with open(os.path.join(room, name), "rb") as file:
                left[name] = file.read()
    made = left.pop("out", None)
    held.pop("out", None)
    return answer, made, left == held


def see_unpacked(program, count, what, story, file):
    """A file's unpacking, by what is worked out here: the plain save, or why there is none."""
    wanted = plain_of(file, story)
    refused = isinstance(wanted, int)
    answer = Answer(1, b"", b"refused: C%d\n" % wanted) if refused else DONE
    seen = answered(program, story, {"his": file}, ["story", "his", "out"])
    count.see(seen == (answer, None if refused else wanted, True), f"unpack, {what}: {seen[0]}, {seen[1] and seen[1][:60]}; wanted was {answer}")


def see_unpacking(program, count):
    for what, story, save in SAVES:
        for how, file in ways(save, story):
            seen = answered(program, story, {"his": file}, ["story", "his", "out"])
            count.see(seen == (DONE, save, True), f"unpack, {what}, {how}: {seen[0]}, {seen[1] and seen[1][:60]}")
    for what, file, number in wrong():
        count.see(plain_of(file, RESTORES) == number, f"unpack, {what}: worked out was {plain_of(file, RESTORES)}")
        see_unpacked(program, count, what, RESTORES, file)
    for what, before, words, answer, wanted in FILES:
        seen = answered(program, RESTORES, {"his": HIS, **({} if before is None else {"out": before})}, words)
        count.see(seen == (answer, wanted, True), f"unpack to {what}: {seen[0]}, {seen[1] and seen[1][:60]}; wanted was {answer}")
    cases = list(changes(HIS))
    for _ in side_by_side(lambda case: see_unpacked(program, count, case[0], RESTORES, case[1]), cases):
        pass
    see_restored(program, count)


def see_restored(program, count):
    """What was unpacked is restored, and what wasn't is refused: the global that the save changes is printed behind y."""
    with tempfile.TemporaryDirectory(prefix="unpack-") as room:
        for name, contents in (("story", RESTORES), ("his", HIS)):
            with open(os.path.join(room, name), "wb") as file:
                file.write(contents)
        told = program.run_in(room, ["play", "--tell", "--save", "his", "story"])
        count.is_answer("a packed save, played", told, Answer(0, b"0", b"save refused: Q5\n"))
        program.run_in(room, ["unpack", "story", "his", "out"])
        count.is_answer("an unpacked save, played", program.run_in(room, ["play", "--tell", "--save", "out", "story"]), Answer(0, b"y3", b""))
