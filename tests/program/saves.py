#!/usr/bin/env python3
"""Saves, restores and restarts, on both machines. The bytes of each save are put together here after the Quetzal standard and
docs/MACHINE.md, and what is printed is worked out by hand. Each byte of a save is altered in four ways, and each beginning of it tried.

    saves.py PROGRAM
"""
import os
import struct
import subprocess
import sys
import tempfile

from altered import changes
from plays import PRINT_FIRST, PRINT_TOP, SAY_NO, SAY_YES, single
from program import Answer, Count, Program, side_by_side
from samples import CODE, HELLO, QUIT, RELEASE, SERIAL, STATIC, certificate, changed, interval, story, word

SAVE = b"\xb5\xc2"  # to what follows, whether it was kept or not
RESTORE = b"\xb6\x42"  # to what follows, where nothing is restored
RESTART = b"\xb7"
FLAGS = 0x11  # the low byte of Flags 2
LOAD_FLAGS = b"\x10\0\x11\0"  # loadb 0 17, to the stack
FIRST_FRAME = bytes(8)
IN_SAVE = 42  # where dynamic memory begins in a save


def chunk(name, data):
    return name + struct.pack(">I", len(data)) + data + b"\0" * (len(data) % 2)


def saved(made, place, memory=None, frames=FIRST_FRAME, checksum=None, before=b"", release=RELEASE, serial=SERIAL):
    """A save of a story at the `save` that begins at the place, with the checksum of its header or another."""
    head = word(release) + serial + (made[0x1C:0x1E] if checksum is None else word(checksum)) + struct.pack(">I", place + 1)[1:]
    chunks = before + chunk(b"IFhd", head) + chunk(b"UMem", memory or made[:STATIC]) + chunk(b"Stks", frames)
    return b"FORM" + struct.pack(">I", len(chunks) + 4) + b"IFZS" + chunks


def done(output=b"", errors=b""):
    return Answer(0, output, errors)


# ---- stories

# It saves, tries to restore, and quits.
SAVES = story(SAVE + b"\xb6\xc2" + QUIT)
SAVES_LISTED = certificate(SAVES, [0x324, 0x326, 0x328])
THAT_SAVE = saved(SAVES, 0x324)

# It tries to restore. Where a save leads to the `save` at 326, it prints y; then what global 16 is.
RESTORES = story(b"\xb6\x47" + SAVE + SAY_YES + PRINT_FIRST + QUIT)
RESTORES_LISTED = certificate(RESTORES, [0x324, 0x326, 0x328, 0x32B, 0x32E])
ITS_SAVE = saved(RESTORES, 0x326)
# The same within 200 frames more, each with 15 locals and 20 words on its stack.
DEEP_SAVE = saved(RESTORES, 0x326, frames=FIRST_FRAME + 200 * (b"\0\x03\x2e\x0f\0\0\0\x14" + bytes(70)))

# It tries to restore, and else prints n and calls a routine with 3, which pushes 5, saves, prints both, and gives 3 back.
INSIDE = story(
    RESTORE + SAY_NO + b"\xe0\x1f\x01\x9a\x03\x10" + PRINT_FIRST + QUIT + b"\0"
    + b"\x01\0\0" + b"\xe8\x7f\x05" + SAVE + b"\xe6\xbf\x01" + PRINT_TOP + b"\xab\x01"
)
INSIDE_LISTED = certificate(
    INSIDE, [0x324, 0x326, 0x329, 0x32F, 0x332, 0x337, 0x33A, 0x33C, 0x33F, 0x342],
    stacks=dict.fromkeys([0x33A, 0x33C, 0x33F], single(5)), routines=[(0x334, 1, (3, 3))],
    inside=dict.fromkeys([0x337, 0x33A, 0x33C, 0x33F, 0x342], (1, single(3))), own={16: (0, 3)},
)
# it returns to 32F with variable 16, has one local and one argument, and a stack of one word
INSIDE_FRAME = b"\0\x03\x2f\x01\x10\x01" + word(1) + word(3) + word(5)

# It prints what it finds in Flags 2 and in global 16. If the first is 0 it sets all bits there, gives the global 5, and begins anew.
ANEW = story(
    LOAD_FLAGS + PRINT_TOP + PRINT_FIRST + LOAD_FLAGS + b"\xa0\0\xc3" + QUIT + b"\xe2\x57\0\x11\xff" + b"\x0d\x10\x05" + PRINT_FIRST + RESTART
)
BYTE = interval(0, 255)
ANEW_LISTED = certificate(
    ANEW, [0x324, 0x328, 0x32B, 0x32E, 0x332, 0x335, 0x336, 0x33B, 0x33E, 0x341], stacks={0x328: BYTE, 0x332: BYTE}, own={16: (0, 5)}
)

# With a bit of Flags 2 set it draws two numbers up to 3. Else it sets it, begins to count to 3, draws one, and begins anew.
DRAW = b"\xe7\x7f\x03\0"
COUNTS = story(
    LOAD_FLAGS + b"\xa0\0\xd1" + (DRAW + PRINT_TOP) * 2 + QUIT + b"\xe2\x57\0\x11\x01" + b"\xe7\x3f\xff\xfd\0" + PRINT_TOP + DRAW + PRINT_TOP + RESTART
)
DRAWN = interval(1, 3)
COUNTS_LISTED = certificate(
    COUNTS, [0x324, 0x328, 0x32B, 0x32F, 0x332, 0x336, 0x339, 0x33A, 0x33F, 0x344, 0x347, 0x34B, 0x34E],
    stacks={0x328: BYTE, 0x32F: DRAWN, 0x336: DRAWN, 0x344: single(0), 0x34B: DRAWN},
)

# It sets bit 1 of Flags 2 and restores; at the `save` at 32C it prints Flags 2.
KEEPS = story(b"\xe2\x57\0\x11\x02" + RESTORE + QUIT + SAVE + LOAD_FLAGS + PRINT_TOP + QUIT)
KEEPS_LISTED = certificate(KEEPS, [0x324, 0x329, 0x32B, 0x32C, 0x32E, 0x332, 0x335], stacks={0x332: BYTE})

# It begins to count to 3, draws and prints a number, and restores; at the `save` at 333 it draws and prints another.
GOES_ON = story(
    b"\xe7\x3f\xff\xfd\x10" + b"\xe7\x7f\x03\x10" + PRINT_FIRST + RESTORE + QUIT + SAVE + b"\xe7\x7f\x03\x10" + PRINT_FIRST + QUIT
)
GOES_ON_LISTED = certificate(GOES_ON, [0x324, 0x329, 0x32D, 0x330, 0x332, 0x333, 0x335, 0x339, 0x33C], own={16: (0, 3)})

# It says whether it saved, and whether it restored.
TELLS = story(b"\xb5\xc3" + QUIT + HELLO + QUIT)
TELLS_LISTED = certificate(TELLS, [0x324, 0x326, 0x327, 0x32C])
TELLS_NONE = story(b"\xb6\x43" + QUIT + HELLO + QUIT)
TELLS_NONE_LISTED = certificate(TELLS_NONE, [0x324, 0x327, 0x32C])

# It tries to restore, saves, prints global 16 and counts it up, and restores again; where that fails it prints the global once more.
AGAIN = story(RESTORE + SAVE + PRINT_FIRST + b"\x95\x10" + RESTORE + PRINT_FIRST + QUIT)
AGAIN_LISTED = certificate(AGAIN, [0x324, 0x326, 0x328, 0x32B, 0x32D, 0x32F, 0x332], own={16: (-32768, 32767)})

# It tries to restore, and else prints n and calls a routine with 1,000, which pushes 550 words and calls itself with one less, until its
# local is 0: then it saves, prints y, and quits. Each frame that it saves has 10 bytes beside those words.
DEEP = story(
    RESTORE + SAY_NO + b"\xe0\x0f\x01\x9a\x03\xe8\x10" + QUIT + b"\0" * 3
    + b"\x01\0\0" + b"\xe8\x7f\x05" * 550 + b"\xa0\x01\xcc" + b"\x55\x01\x01\x01" + b"\xe0\x2f\x01\x9a\x01\0" + SAVE + SAY_YES + QUIT
)

QUITS = story(SAVE + QUIT)
QUITS_LISTED = certificate(QUITS, [0x324, 0x326])

# the save of the story that quits, byte by byte: 664 of them
QUITS_SAVE = (
    b"FORM\0\0\x02\x90IFZS" + b"IFhd\0\0\0\x0d\0\x01260101\x39\x6e\0\x03\x25\0" + b"UMem\0\0\x02\x5e" + QUITS[:606] + b"Stks\0\0\0\x08" + bytes(8)
)
NO_SUM = changed(RESTORES, 0x1C, 0, 0)  # a header that says nothing of the sum
SUM = sum(RESTORES[64:]) % 65536

# ---- plays: name, story, its certificate, options, what is kept before, what is printed, what is kept then

PLAYS = [
    ("a save", QUITS, QUITS_LISTED, ["--save", "kept"], None, b"", QUITS_SAVE),
    ("a save in the place of another", QUITS, QUITS_LISTED, ["--save", "kept"], bytes(1000), b"", QUITS_SAVE),
    ("a save that is kept", TELLS, TELLS_LISTED, ["--save", "kept"], None, b"hello", saved(TELLS, 0x324)),
    ("a save that is kept nowhere", TELLS, TELLS_LISTED, [], None, b"", None),
    ("a save to a folder", TELLS, TELLS_LISTED, ["--save", "."], None, b"", None),
    ("a save to a full device", TELLS, TELLS_LISTED, ["--save", "/dev/full"], None, b"", None),
    ("a save to a folder that isn't there", TELLS, TELLS_LISTED, ["--save", "absent/kept"], None, b"", None),
    ("nothing to restore", TELLS_NONE, TELLS_NONE_LISTED, ["--save", "kept"], None, b"hello", None),
    ("nowhere to restore from", TELLS_NONE, TELLS_NONE_LISTED, [], None, b"hello", None),
    ("a folder to restore from", TELLS_NONE, TELLS_NONE_LISTED, ["--save", "."], None, b"hello", None),
    ("neither a save nor a restore", SAVES, SAVES_LISTED, ["--save", "."], None, b"", None),
    ("a save", RESTORES, RESTORES_LISTED, ["--save", "kept"], ITS_SAVE, b"y0", ITS_SAVE),
    ("an empty file", RESTORES, RESTORES_LISTED, ["--save", "kept"], b"", b"0", b""),
    ("a byte behind a save", RESTORES, RESTORES_LISTED, ["--save", "kept"], ITS_SAVE + b"\0", b"0", ITS_SAVE + b"\0"),
    ("a save of compressed memory", RESTORES, RESTORES_LISTED, ["--save", "kept"], ITS_SAVE.replace(b"UMem", b"CMem"), b"0", None),
    ("a save of another release", RESTORES, RESTORES_LISTED, ["--save", "kept"], saved(RESTORES, 0x326, release=2), b"0", None),
    ("a save of another serial", RESTORES, RESTORES_LISTED, ["--save", "kept"], saved(RESTORES, 0x326, serial=b"260102"), b"0", None),
    ("a save with a chunk before it", RESTORES, RESTORES_LISTED, ["--save", "kept"], saved(RESTORES, 0x326, before=chunk(b"ANNO", b"odd")), b"y0", None),
    ("a save at a `restore`", RESTORES, RESTORES_LISTED, ["--save", "kept"], saved(RESTORES, 0x324), b"0", None),
    ("a save at another place", RESTORES, RESTORES_LISTED, ["--save", "kept"], saved(RESTORES, 0x327), b"0", None),
    ("of a story without a sum, the sum of the file", NO_SUM, certificate(NO_SUM, [0x324, 0x326, 0x328, 0x32B, 0x32E]), ["--save", "kept"], saved(NO_SUM, 0x326, checksum=SUM), b"y0", None),
    ("of a story without a sum, none", NO_SUM, certificate(NO_SUM, [0x324, 0x326, 0x328, 0x32B, 0x32E]), ["--save", "kept"], saved(NO_SUM, 0x326, checksum=0), b"y0", None),
    ("of a story without a sum, another", NO_SUM, certificate(NO_SUM, [0x324, 0x326, 0x328, 0x32B, 0x32E]), ["--save", "kept"], saved(NO_SUM, 0x326, checksum=1), b"0", None),
    ("a frame more than the first", INSIDE, INSIDE_LISTED, ["--save", "kept"], None, b"n353", saved(INSIDE, 0x33A, frames=FIRST_FRAME + INSIDE_FRAME)),
    ("a story that begins anew", ANEW, ANEW_LISTED, [], None, b"00530", None),
    ("a count that goes on in a story that begins anew", COUNTS, COUNTS_LISTED, [], None, b"0231", None),
    ("Flags 2 of a save, but for two bits", KEEPS, KEEPS_LISTED, ["--save", "kept"], changed(saved(KEEPS, 0x32C), IN_SAVE + FLAGS, 0xFF), b"254", None),
    ("Flags 2, where a save has one of the bits", KEEPS, KEEPS_LISTED, ["--save", "kept"], changed(saved(KEEPS, 0x32C), IN_SAVE + FLAGS, 1), b"2", None),
    ("a count that goes on after a restore", GOES_ON, GOES_ON_LISTED, ["--save", "kept"], saved(GOES_ON, 0x333), b"23", None),
    ("a release of a save's header", RESTORES, RESTORES_LISTED, ["--save", "kept"], changed(ITS_SAVE, IN_SAVE + 2, 0, 9), b"y0", None),
]

# ---- the same with ends that are said: what is printed, and what is said

ENDS = [
    ("a save that leads back to itself", SAVES, SAVES_LISTED, ["--budget", "100"], None, b"", b"end: budget\n"),
    ("three steps after a restore", RESTORES, RESTORES_LISTED, ["--budget", "3"], ITS_SAVE, b"y0", b""),
    ("two steps after a restore", RESTORES, RESTORES_LISTED, ["--budget", "2"], ITS_SAVE, b"y", b"end: budget\n"),
    ("two steps without one", RESTORES, RESTORES_LISTED, ["--budget", "2"], None, b"0", b""),
    ("one step without one", RESTORES, RESTORES_LISTED, ["--budget", "1"], None, b"", b"end: budget\n"),
]


def is_other(kept):
    """Whether a file of these bytes is written over only where that is asked for: it begins neither as a save does, nor as a part of that."""
    return not (kept or b"").startswith(b"FORM"[: len(kept or b"")])


def on_both(program, made, listed, options, kept):
    """What each machine answers, what it keeps, and whether there is any other file then."""
    options = [*options, *(["--force"] if is_other(kept) else [])]
    for machine, words in (("checked", ["story"]), ("by its certificate", ["story", "certificate"])):
        with tempfile.TemporaryDirectory(prefix="saves-") as room:
            files = {"story": made, "certificate": listed, **({} if kept is None else {"kept": kept})}
            for name, contents in files.items():
                with open(os.path.join(room, name), "wb") as file:
                    file.write(contents)
            answer = program.run_in(room, ["play", *options, *words])
            there = os.path.join(room, "kept")
            left = None
            if os.path.exists(there):
                with open(there, "rb") as file:
                    left = file.read()
            yield machine, answer, left, sorted(set(os.listdir(room)) - {"story", "certificate", "kept"})


def see_plays(program, count):
    for name, made, listed, options, kept, output, wanted in PLAYS:
        for machine, answer, left, others in on_both(program, made, listed, options, kept):
            well = answer == done(output) and not others and left == (kept if wanted is None else wanted)
            count.see(well, f"{name}, {machine}: {answer}, wanted was {output}; kept {left and left[:60]}, and {others}")
    for name, made, listed, options, kept, output, errors in ENDS:
        for machine, answer, left, others in on_both(program, made, listed, ["--save", "kept", *options], kept):
            wanted = THAT_SAVE if made is SAVES else kept
            count.see(answer == done(output, errors) and left == wanted and not others, f"{name}, {machine}: {answer}; kept {left and left[:60]}")


def see_occupied(program, count):
    """Files that hold something else, and are left as they are unless that is asked for."""
    files = {"story": TELLS, "certificate": TELLS_LISTED}
    refused = {"play": Answer(1, b"", b"refused: N2\n"), "find": Answer(1, b"", b"refused: N1\n")}
    others = [b"a", b"FO", b"FORN", b"FOR ", b"ZP", b"ZPCD", b"ZPCC", b"FORM", b"", TELLS]
    begins = {"play": b"FORM", "find": b"ZPCC"}
    wanted = {"play": (b"hello", saved(TELLS, 0x324)), "find": (b"found\n", None)}
    for command, magic in begins.items():
        for held in others:
            for forced in ([], ["--force"]):
                with tempfile.TemporaryDirectory(prefix="saves-") as room:
                    for name, contents in {**files, "kept": held}.items():
                        with open(os.path.join(room, name), "wb") as file:
                            file.write(contents)
                    named = ["story", "kept"] if command == "find" else ["--save", "kept", "story"]
                    answer = program.run_in(room, [command, *forced, *named])
                    with open(os.path.join(room, "kept"), "rb") as file:
                        left = file.read()
                may = bool(forced) or held[:4] == magic[: len(held)]
                output, bytes_ = wanted[command]
                well = answer == done(output) and left[:4] == magic and left in (bytes_ or left,) if may else answer == refused[command] and left == held
                count.see(well, f"{command} {forced} to a file of {held[:9]}: {answer}; left {left[:9]}")
    for name, script, errors, left in [
        ("the story itself", 'cp story kept; "$1" find kept kept; cmp story kept', b"refused: N1\n", b""),
        ("a link to the story", 'ln -s story kept; "$1" play --save kept story; cmp story kept', b"refused: N2\n", b""),
        ("a file that can't be read as a save", 'printf old >kept; "$1" play --save kept absent; cat kept', b"refused: N2\n", b"old"),
        ("a pipe", 'mkfifo kept; "$1" find story kept & cat kept | head -c 4; wait', b"", b"ZPCCfound\n"),
        ("a device", '"$1" find story /dev/null', b"", b"found\n"),
    ]:
        with tempfile.TemporaryDirectory(prefix="saves-") as room:
            for file_name, contents in files.items():
                with open(os.path.join(room, file_name), "wb") as file:
                    file.write(contents)
            ran = subprocess.run(["sh", "-c", script, "sh", program.path], cwd=room, stdin=subprocess.DEVNULL, stdout=subprocess.PIPE, stderr=subprocess.PIPE, timeout=60)
            count.see((sorted(ran.stdout), ran.stderr) == (sorted(left), errors), f"{name}: {ran}")


def see_told(program, count):
    """With `--tell` the errors say of each save that is refused why, each time, and before the line of the end; where no file can be read,
    or saves are kept nowhere, they say nothing of it. Without it all is the same but for those lines."""
    once = b"save refused: Q5\n"
    compressed = ITS_SAVE.replace(b"UMem", b"CMem")
    twice = story((RESTORE + SAY_NO) * 2 + QUIT)
    twice_listed = certificate(twice, [0x324, 0x326, 0x329, 0x32B, 0x32E])
    for name, made, listed, options, kept, output, told, end in [
        ("a refusal", RESTORES, RESTORES_LISTED, ["--save", "kept"], compressed, b"0", once, b""),
        ("a refusal and an end that is said", RESTORES, RESTORES_LISTED, ["--save", "kept", "--budget", "1"], compressed, b"", once, b"end: budget\n"),
        ("two refusals", twice, twice_listed, ["--save", "kept"], compressed, b"nn", 2 * once, b""),
        ("no file", RESTORES, RESTORES_LISTED, ["--save", "kept"], None, b"0", b"", b""),
        ("a folder", RESTORES, RESTORES_LISTED, ["--save", "."], None, b"0", b"", b""),
        ("no place for saves", RESTORES, RESTORES_LISTED, [], compressed, b"0", b"", b""),
        ("a save that is restored", RESTORES, RESTORES_LISTED, ["--save", "kept"], ITS_SAVE, b"y0", b"", b""),
    ]:
        for errors, more in ((end, []), (told + end, ["--tell"])):
            for machine, answer, left, others in on_both(program, made, listed, [*options, *more], kept):
                well = answer == done(output, errors) and left == kept and not others
                count.see(well, f"{name}, {more}, {machine}: {answer}, wanted was {output} and {errors}")
    # where the errors take no byte, play goes on
    with tempfile.TemporaryDirectory(prefix="saves-") as room:
        for file_name, contents in (("story", RESTORES), ("kept", compressed)):
            with open(os.path.join(room, file_name), "wb") as file:
                file.write(contents)
        with open("/dev/full", "wb") as full:
            ran = subprocess.run([program.path, "play", "--tell", "--save", "kept", "story"], cwd=room, stdin=subprocess.DEVNULL, stdout=subprocess.PIPE, stderr=full, timeout=60)
        count.see((ran.returncode, ran.stdout) == (0, b"0"), f"errors that take no byte: {ran}")


def see_again(program, count):
    """A save is restored that was kept since the file was last read: at first it is empty, and can't be restored from."""
    for machine, answer, left, others in on_both(program, AGAIN, AGAIN_LISTED, ["--save", "kept", "--budget", "9"], b""):
        well = answer == done(b"000", b"end: budget\n") and left == saved(AGAIN, 0x326) and not others
        count.see(well, f"restored, saved and restored, {machine}: {answer}; kept {left and left[:60]}")


def see_long(program, count):
    """A save of over a million bytes, by one process, and restored by another."""
    with tempfile.TemporaryDirectory(prefix="saves-") as room:
        kept = os.path.join(room, "kept")
        with open(os.path.join(room, "story"), "wb") as file:
            file.write(DEEP)
        for output in (b"ny", b"y"):
            count.is_answer(f"a long save, {output}", program.run_in(room, ["play", "--save", "kept", "story"]), done(output))
            size = os.path.getsize(kept) if os.path.exists(kept) else 0
            count.see(size > 1001 * 1108, f"a long save: {size} bytes were kept")


def chunks_of(file):
    """The chunks of a form, by their names and data, if it is made of chunks alone, each of which has its length and a zero behind odd data
    (Q 5, 8)."""
    found, at = [], 12
    while at < len(file):
        size = int.from_bytes(file[at + 4 : at + 8], "big")
        end = at + 8 + size + size % 2
        if end > len(file) or file[at + 8 + size : end].strip(b"\0"):
            return None
        found.append((file[at : at + 4], file[at + 8 : at + 8 + size]))
        at = end
    return None if any(name == b"IFhd" and len(data) != 13 for name, data in found) else found


def are_frames(data):
    """Whether these are frames that a story can have, of which all but the stack of the first is zero (Q 4)."""
    count = 0
    while data:
        flags, supplied, slots = data[3], data[5] if len(data) > 5 else 255, int.from_bytes(data[6:8], "big")
        size = 8 + 2 * flags + 2 * slots
        if len(data) < size or flags > 15 or supplied not in (0, 1, 3, 7) or count == 0 and data[:6].strip(b"\0"):
            return False
        data, count = data[size:], count + 1
    return 1 <= count <= 4097


def refusal_of(file):
    """The number of the lowest Q that stands in the way of reading a file as a save of the story that restores, or of going on at its
    place, where that `save` is the only one."""
    if len(file) < 12 or file[:4] != b"FORM" or file[8:12] != b"IFZS":
        return 1
    chunks = chunks_of(file) if int.from_bytes(file[4:8], "big") + 8 == len(file) else None
    if chunks is None:
        return 2
    names = [name for name, _ in chunks if name in (b"IFhd", b"UMem", b"CMem", b"Stks")]
    if names[:1] != [b"IFhd"] or b"Stks" not in names or not {b"UMem", b"CMem"} & set(names):
        return 3
    if any(names.count(it) > 1 for it in (b"IFhd", b"UMem", b"Stks")):
        return 4
    if b"CMem" in names:
        return 5
    data = dict(chunks)
    if data[b"IFhd"][:10] != ITS_SAVE[20:30]:
        return 6
    if len(data[b"UMem"]) != STATIC:
        return 7
    if not are_frames(data[b"Stks"]):
        return 8
    return None if data[b"IFhd"][10:] == ITS_SAVE[30:33] else 9


def see_altered(program, count):
    """Each byte of a save altered, and each beginning. Each machine restores what nothing stands in the way of, but for the certificate, by
    which each global is 0 and property defaults stay: of memory it leaves the header open alone. What isn't restored is told by its number,
    and play goes on."""
    def restored(file):
        return done(b"y%d" % struct.unpack(">h", file[IN_SAVE + 64 : IN_SAVE + 66]))

    def wanted(file):
        number = refusal_of(file)
        if number:
            return 2 * [done(b"0", b"save refused: Q%d\n" % number)]
        listed = file[IN_SAVE + 64 : IN_SAVE + STATIC] == ITS_SAVE[IN_SAVE + 64 : IN_SAVE + STATIC]
        return [restored(file), restored(file) if listed else done(b"0", b"save refused: Q10\n")]

    def answers(case):
        told = ["--save", "kept", "--tell"]
        return [(answer, left == case[1], others) for _, answer, left, others in on_both(program, RESTORES, RESTORES_LISTED, told, case[1])]

    cases = list(changes(ITS_SAVE))
    seen = set()
    for (name, file), both in zip(cases, side_by_side(answers, cases)):
        for (answer, same, others), by_hand in zip(both, wanted(file)):
            seen.add(by_hand.errors)
            count.see(answer == by_hand and same and not others, f"save, {name}: {answer}, wanted was {by_hand}")
    # by one byte no chunk comes to be there twice, or compressed
    count.see(seen == {b"", *(b"save refused: Q%d\n" % number for number in (1, 2, 3, 6, 7, 8, 9, 10))}, f"of altered saves was told: {sorted(seen)}")


def see_processes(program, count):
    """A save of one process is restored by another, of either machine."""
    for first in (["story"], ["story", "certificate"]):
        for second in (["story"], ["story", "certificate"]):
            with tempfile.TemporaryDirectory(prefix="saves-") as room:
                for name, contents in (("story", INSIDE), ("certificate", INSIDE_LISTED)):
                    with open(os.path.join(room, name), "wb") as file:
                        file.write(contents)
                count.is_answer(f"a first process, {first}", program.run_in(room, ["play", "--save", "kept", *first]), done(b"n353"))
                count.is_answer(f"a second process, {first}, {second}", program.run_in(room, ["play", "--save", "kept", *second]), done(b"353"))


def see_files(program, count):
    """What happens to the file of an old save."""
    for name, script, output, wanted in [
        ("a disk that has no room", 'printf FORM >kept; trap "" XFSZ; ulimit -f 0; "$1" play --save kept story certificate', b"", b"FORM"),
        ("a link", 'printf FORM >other; ln -s other kept; "$1" play --save kept story certificate; test -L kept || echo no link', b"hello", None),
        ("a link to a file in another folder", 'mkdir far; printf FORM >far/other; ln -s far/other kept; "$1" play --save kept story certificate; test -L kept || echo no link; ls far | grep -v other', b"hello", None),
        ("a link to a link", 'printf FORM >other; ln -s other middle; ln -s middle kept; "$1" play --save kept story certificate; test -L kept -a -L middle || echo no link', b"hello", None),
        ("a link that leads nowhere", 'ln -s other kept; "$1" play --save kept story certificate; test -L kept || echo no link', b"hello", None),
        ("a link that leads nowhere, to another folder", 'mkdir far; ln -s far/other kept; "$1" play --save kept story certificate; test -L kept || echo no link; ls far', b"helloother\n", None),
        ("a link to a folder that isn't there", 'ln -s absent/other kept; "$1" play --save kept story certificate; rm kept; printf none >kept', b"", b"none"),
        ("a link on a disk that has no room", 'printf FORM >other; ln -s other kept; trap "" XFSZ; ulimit -f 0; "$1" play --save kept story certificate', b"", b"FORM"),
        ("the mode of a file", 'printf FORM >kept; chmod 640 kept; "$1" play --save kept story certificate; stat -c %a kept', b"hello640\n", None),
        ("the mode of a file that a link leads to", 'printf FORM >other; chmod 600 other; ln -s other kept; "$1" play --save kept story certificate; stat -c %a other', b"hello600\n", None),
        ("a link where the file beside it would be", 'printf FORM >kept; ln -s story kept.part; "$1" play --save kept story certificate; test -L kept.part && rm kept.part', b"hello", None),
        ("files that were left beside it", 'printf FORM >kept.part; cp kept.part kept.1.part; "$1" play --save kept story certificate; cmp kept.part kept.1.part; grep -q FORM kept.part && rm kept.part kept.1.part', b"hello", None),
        ("a name as long as may be", '"$1" play --save "$(printf "%0250d" 0)" story certificate; cp "$(printf "%0250d" 0)" kept', b"hello", saved(TELLS, 0x324)),
    ]:
        with tempfile.TemporaryDirectory(prefix="saves-") as room:
            for file_name, contents in (("story", TELLS), ("certificate", TELLS_LISTED)):
                with open(os.path.join(room, file_name), "wb") as file:
                    file.write(contents)
            ran = subprocess.run(["bash", "-c", script, "run", program.path], cwd=room, stdin=subprocess.DEVNULL, capture_output=True, timeout=60)
            with open(os.path.join(room, "kept"), "rb") as file:
                left = file.read()
            parts = [it for it in os.listdir(room) if it.endswith(".part")]
            well = ran.stdout == output and left == (saved(TELLS, 0x324) if wanted is None else wanted) and not parts
            count.see(well, f"{name}: {ran.stdout} on the output, {ran.stderr[:100]}; kept {left[:60]}, {parts}")


def main():
    program = Program(sys.argv[1])
    count = Count("saves")
    assert len(QUITS_SAVE) == len(ITS_SAVE) == 664
    see_plays(program, count)
    see_occupied(program, count)
    see_told(program, count)
    see_again(program, count)
    see_long(program, count)
    see_processes(program, count)
    see_files(program, count)
    see_altered(program, count)
    count.end()


if __name__ == "__main__":
    main()
