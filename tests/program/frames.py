"""Limits of frames: certificates of version 3, which name one, plays that end by it on both machines, saves with more frames than may stand
and with fewer, and certificates that are found with a limit. What is printed and told is worked out by hand after docs/MACHINE.md and
docs/CERTIFICATE.md."""
import os
import tempfile

from calls import A, FOR_EVER, call, call_with, deep, files, levels, routine
from lists import recoded
from plays import PRINT_TOP, slots
from program import Answer
from samples import HELLO, QUIT, changed, interval, story, word
from saves import RESTORE, SAVE

MOST, USUAL = 4096, 1024
LIMITS = [0, 1, 3, USUAL - 1, USUAL, USUAL + 1, MOST - 1, MOST]
PLAY, PLAY_LISTED, CHECK = ["play", "story"], ["play", "story", "certificate"], ["check", "story", "certificate"]


def limited(certificate, limit):
    """A certificate of version 1 in version 3: with the same intervals, and with this limit behind the loaded length."""
    made = changed(recoded(certificate), 4, 3)
    return made[:19] + word(limit) + made[19:]


def with_limit(given, limit):
    return {**given, "certificate": limited(given["certificate"], limit)}


# ---- a routine that calls itself for ever, behind hello: with so many frames above the first it stops after as many steps and one

ENDLESS = files([HELLO, call(A, 0), (PRINT_TOP, slots(0)), QUIT], FOR_EVER)


def ends_at(program, count, name, words, given, steps):
    """It stops where the step would be made, also at the end of the budget, and not a step before."""
    for budget, end in [(steps + 5, "frame limit"), (steps, "frame limit"), (steps - 1, "budget")]:
        wanted = Answer(0, b"hello" if budget else b"", f"end: {end}\n".encode())
        count.is_answer(f"{name}, in {budget} steps", program.run([words[0], "--budget", str(budget), *words[1:]], given), wanted)


def see_ends(program, count):
    ends_at(program, count, "with no certificate", PLAY, ENDLESS, MOST + 1)
    ends_at(program, count, "in version 1", PLAY_LISTED, ENDLESS, USUAL + 1)
    ends_at(program, count, "in version 2", PLAY_LISTED, {**ENDLESS, "certificate": recoded(ENDLESS["certificate"])}, USUAL + 1)
    for limit in LIMITS:
        given = with_limit(ENDLESS, limit)
        count.is_answer(f"limit {limit}", program.run(CHECK, given), Answer(0, b"accepted\n", b""))
        ends_at(program, count, f"limit {limit}", PLAY_LISTED, given, limit + 1)
    for limit in (MOST + 1, 32768, 65535):
        for words in (CHECK, PLAY_LISTED):
            count.is_answer(f"limit {limit}", program.run(words, with_limit(ENDLESS, limit)), Answer(1, b"", b"refused: K7\n"))


# ---- levels below the first: one less than the limit, and as many

def see_levels(program, count):
    for limit in LIMITS[1:]:
        for most, wanted in [(limit - 1, Answer(0, str(limit - 1).encode(), b"")), (limit, Answer(0, b"", b"end: frame limit\n"))]:
            given = with_limit(files(deep(most), [levels(max(most, 1))]), limit)
            count.is_answer(f"{most} levels, limit {limit}", program.run(PLAY_LISTED, given), wanted)
    for most, wanted in [(MOST - 1, Answer(0, str(MOST - 1).encode(), b"")), (MOST, Answer(0, b"", b"end: frame limit\n"))]:
        count.is_answer(f"{most} levels, with no certificate", program.run(PLAY, files(deep(most), [levels(most)])), wanted)


# ---- a save in so many frames above the first, and what goes on from it

def saving(most):
    """It restores what is kept, or else saves in the last of so many levels; each gives 7, which is printed."""
    skipped = 4 + 6 + 1
    lines = [(b"\xa0\x01" + word(0x8000 | skipped + 2), [(0, most)]), (b"\x55\x01\x01\x01", [(1, most)])]
    lines += [(call_with(A, 0, 1), [(0, most - 1)]), (b"\xb8", [(0, most - 1)], interval(7, 7))]
    lines += [(SAVE, [(0, 0)]), (b"\x9b\x07", [(0, 0)])]
    return files([RESTORE, *deep(most)[:1], (PRINT_TOP, interval(7, 7)), QUIT], [routine(A, [0], (7, 7), *lines)])


def plays_again(program, first, second, given, limit):
    """What two plays answer that share a file of saves: the first by a certificate with one limit or by none, and so the second."""
    with tempfile.TemporaryDirectory(prefix="zpc-") as room:
        contents = {**given, "first": limited(given["certificate"], limit[0]), "second": limited(given["certificate"], limit[1])}
        for name, bytes_ in contents.items():
            with open(os.path.join(room, name), "wb") as file:
                file.write(bytes_)
        words = ["play", "--tell", "--save", "kept", "story"]
        return [program.run_in(room, words + it) for it in (first, second)]


def see_saves(program, count):
    """A save of 4 frames above the first is refused where 3 may stand, and goes on where 4 may, whatever limit it was made under."""
    given, kept = saving(3), Answer(0, b"7", b"")
    deeper = Answer(0, b"", b"save refused: Q10\nend: frame limit\n")
    for made_by, limit in [([], 4), (["first"], 4), (["first"], USUAL), (["first"], MOST)]:
        for taken_by, other, wanted in [([], 0, kept), (["second"], 4, kept), (["second"], MOST, kept), (["second"], 3, deeper), (["second"], 0, deeper)]:
            name = f"saved {made_by or 'with none'} within {limit}, restored {taken_by or 'with none'} within {other}"
            first, second = plays_again(program, made_by, taken_by, given, (limit, other))
            count.is_answer(f"{name}, saved", first, kept)
            count.is_answer(name, second, wanted)
    # as many frames as may stand in any play, on both machines and from each to the other
    given = saving(MOST - 1)
    for made_by in ([], ["first"]):
        for taken_by, other, wanted in [([], 0, kept), (["second"], MOST, kept), (["second"], MOST - 1, deeper)]:
            first, second = plays_again(program, made_by, taken_by, given, (MOST, other))
            count.is_answer(f"{MOST} frames saved {made_by or 'with none'}", first, kept)
            count.is_answer(f"{MOST} frames restored {taken_by or 'with none'} within {other}", second, wanted)


# ---- certificates that are found with a limit

CALLS_ITSELF = story(HELLO + b"\xe0\x3f\x01\x98\x00\xba\0\0\xe0\x3f\x01\x98\x00\xb8")


def see_found(program, count):
    for limit in LIMITS:
        with tempfile.TemporaryDirectory(prefix="zpc-") as room:
            with open(os.path.join(room, "story"), "wb") as file:
                file.write(CALLS_ITSELF)
            words = ["find", "--frames", str(limit), "story", "certificate"]
            count.is_answer(f"found for {limit} frames", program.run_in(room, words), Answer(0, b"found\n", b""))
            with open(os.path.join(room, "certificate"), "rb") as file:
                found = file.read()
        count.see(found[4:5] == b"\3" and found[19:21] == word(limit), f"found for {limit} frames: version {found[4]}, limit {found[19:21].hex()}")
        ends_at(program, count, f"found for {limit} frames", PLAY_LISTED, {"story": CALLS_ITSELF, "certificate": found}, limit + 1)
    for wrong in ("4097", "65536", "-1", "x", ""):
        answer = program.run(["find", "--frames", wrong, "story", "certificate"], {"story": CALLS_ITSELF})
        count.see(answer.status == 2 and not answer.output and answer.errors, f"find with {wrong or 'no'} frames: {answer}")


def see_frames(program, count):
    see_ends(program, count)
    see_levels(program, count)
    see_saves(program, count)
    see_found(program, count)
