#!/usr/bin/env python3
"""Every byte of two stories and of their certificates altered, and every beginning of both: each is refused by name, or is accepted
and then plays by its certificate as it does on the checked machine. Of what is accepted both machines make 1,000 steps side by side:
behind each step they gave out the same and are in the same state, up to the same pause. Certificates come in pieces too: in
pieces that are given, with what is answered of each, and cut in many ways, with the answer of the whole each time.

    altered.py PROGRAM CALLS

CALLS is the program that makes the libraries' calls one by one.
"""
import random
import re
import sys

from program import Answer, Count, Program, side_by_side
from calls import PRINT_FIRST, RET_POPPED, call
from lists import LISTED, NAMED, NAMINGS, TABLE, alterations, damaged, drawn_certificate, list_of, marks_of, refusal, table_listed
from marks import BOTH, MADE
from samples import CODE, HELLO, NOP, QUIT, certificate, changed, interval, story

REFUSED = re.compile(rb"refused: [LKSI][0-9]{1,2}( at [0-9a-f]{5})?\n")
PLAYED = re.compile(rb"(end: budget\n)?")
FAULT = re.compile(rb"fault: F[0-9]{1,2} at (-?[0-9]+|[0-9a-f]{5})\n")
ALIKE = re.compile(rb"alike: [A-Z][A-Za-z]+ at [0-9]+, memory [0-9]+\n")

# It prints a text and quits.
PLAIN = story(HELLO + QUIT)
PLAIN_LISTED = certificate(PLAIN, [0x324, 0x329])

# Its main code calls a routine of one local, which gives what it pushes.
CALLING = story(HELLO + call(0x334, 16, 3) + PRINT_FIRST + QUIT + b"\0" + b"\x01\0\0" + b"\xe8\xbf\x01" + NOP + RET_POPPED)
INSIDE, SLOT = (1, interval(1, 4)), interval(0, 5)
CALLING_LISTED = certificate(
    CALLING, [0x324, 0x329, 0x32F, 0x332, 0x337, 0x33A, 0x33B], stacks={0x33A: SLOT, 0x33B: SLOT}, ranges=[(0x230, 0x231), (0x240, 0x240)],
    routines=[(0x334, 1, (0, 5))], inside=dict.fromkeys([0x337, 0x33A, 0x33B], INSIDE), own={16: (0, 5)},
)

# ---- single bytes of the plain story and of its certificate: place, what is there then, what is said of both, and how the story plays
# on the machine that tests everything, where that is worked out

HELLO_IS_PRINTED, NOTHING = Answer(0, b"hello", b""), Answer(0, b"", b"")


def fault(code):
    return Answer(3, b"", f"fault: {code} at 00324\n".encode())


STORY_BYTES = [
    ("globals from 63 on", 0x0D, 0x3F, "L6", None),
    ("static memory from behind the story on", 0x0E, 0x03, "L5", None),
    ("entries of three bytes", 0x321, 0x03, "L9", None),
    ("65,280 entries", 0x322, 0xFF, "L8", None),
    ("play that begins at quit", 7, 0x29, None, NOTHING),
    ("a text that is returned from", 0x324, 0xB3, "I13 at 00324", fault("F15")),
    ("a text without an end", 0x327, 0x46, "I1 at 00324", fault("F2")),
    ("no quit", 0x329, 0xBB, "I4 at 00329", None),
]
CERTIFICATE_BYTES = [
    ("another version", 4, [9], "K2"),
    ("version 6", 4, [6], "K2"),
    ("an address twice", 990, [0x29], "K5"),
    ("another first address", 990, [0x25], "S2"),
    ("one instruction", 986, [1], "K4"),
    ("three instructions", 986, [3], "K3"),
    ("131,073 instructions", 983, [0, 2, 0, 1], "K7"),
    ("a routine that isn't there", 992, [1], "K7"),
    ("a height of 1", 993, [1], "K3"),
]

# ---- certificates in pieces, with what is answered of each piece, and then at the end


def by(size, file):
    return [file[at : at + size] for at in range(0, len(file), size)]


def with_empty(pieces):
    return [part for piece in pieces for part in (b"", piece, b"")]


TWICE, NO_ROUTINE = changed(PLAIN_LISTED, 990, 0x29), changed(PLAIN_LISTED, 992, 1)
IN_PIECES = [
    ("whole", [PLAIN_LISTED], None, "accepted"),
    ("a byte at a time", by(1, PLAIN_LISTED), None, "accepted"),
    ("by seven, with empty ones between", with_empty(by(7, PLAIN_LISTED)), None, "accepted"),
    ("another magic, in two pieces", [b"ZP", b"CD"], (1, "K1"), "K1"),
    ("the first half of the magic", [b"ZP"], None, "K3"),
    ("another magic that is cut off", [b"Q"], None, "K3"),
    ("no piece", [], None, "K3"),
    ("an empty piece", [b""], None, "K3"),
    ("all but the last byte", by(400, PLAIN_LISTED[:-1]), None, "K3"),
    ("a byte behind it", [PLAIN_LISTED, b"", b"\0"], (2, "K4"), "K4"),
    ("a byte behind it, in its last piece", [PLAIN_LISTED[:500], PLAIN_LISTED[500:] + b"\0"], (1, "K4"), "K4"),
    ("another version, and then nothing", [PLAIN_LISTED[:4], b"\x09"], (1, "K2"), "K2"),
    ("a certificate behind what is none", [b"ZPCD", *by(300, PLAIN_LISTED)], (0, "K1"), "K1"),
    # behind the last byte of the second address, and of the number of a routine
    ("an address twice", [TWICE[:997], TWICE[997:998], TWICE[998:]], (1, "K5"), "K5"),
    ("a routine that isn't there", [NO_ROUTINE[:992], NO_ROUTINE[992:993], NO_ROUTINE[993:]], (1, "K7"), "K7"),
    ("another first address", by(9, changed(PLAIN_LISTED, 990, 0x25)), None, "S2"),
    ("no quit listed", by(9, certificate(PLAIN, [0x324])), None, "I4 at 00324"),
]


# Of version 2: sets are cut within their kind, count and words.
SETS_AT = LISTED.index(list_of(411, 413))
FALLS, HAS_ALL = (changed(LISTED, SETS_AT + 4, *word) for word in (b"\x01\x9a", b"\x01\x9c"))
LISTS_IN_PIECES = [
    ("whole", [LISTED], None, "accepted"),
    ("a byte at a time", by(1, LISTED), None, "accepted"),
    ("by three, with empty ones between", with_empty(by(3, LISTED)), None, "accepted"),
    ("cut behind its kind", [LISTED[: SETS_AT + 1], LISTED[SETS_AT + 1 :]], None, "accepted"),
    ("cut within a word", [LISTED[: SETS_AT + 3], LISTED[SETS_AT + 3 : SETS_AT + 5], LISTED[SETS_AT + 5 :]], None, "accepted"),
    ("all but the last byte", by(400, LISTED[:-1]), None, "K3"),
    ("a byte behind it", [LISTED, b"\0"], (1, "K4"), "K4"),
    ("kind 2", [LISTED[:SETS_AT], b"\2", LISTED[SETS_AT + 1 :]], (1, "K9"), "K9"),
    ("a count of 1", [LISTED[: SETS_AT + 1], b"\1", LISTED[SETS_AT + 2 :]], (1, "K9"), "K9"),
    ("a count of 65", [LISTED[: SETS_AT + 1], b"\x41", LISTED[SETS_AT + 2 :]], (1, "K9"), "K9"),
    ("a list that falls", [FALLS[: SETS_AT + 5], FALLS[SETS_AT + 5 : SETS_AT + 6], FALLS[SETS_AT + 6 :]], (1, "K5"), "K5"),
    ("a list that is an interval", [HAS_ALL[: SETS_AT + 5], HAS_ALL[SETS_AT + 5 : SETS_AT + 6], HAS_ALL[SETS_AT + 6 :]], (1, "K9"), "K9"),
    ("a routine less", by(9, table_listed(routines=list_of(411, 415))), None, "I4 at 00328"),
]


def see_pieces(calls, count, made, given):
    for name, pieces, refused, end in given:
        files = {f"piece {number}": piece for number, piece in enumerate(pieces)}
        answer = calls.run(["pieces", "story", *files], {"story": made, **files})
        at, code = refused or (len(pieces), "")
        wanted = ["open"] * at + [code] * (len(pieces) - at) + [end]
        count.is_answer(f"in pieces, {name}", answer, Answer(0, "".join(f"{line}\n" for line in wanted).encode(), b""))


def at_random(file, chosen):
    """The file with some bytes altered, bytes left out, put in, or cut off, or with parts of it twice."""
    made = bytearray(file)
    for _ in range(chosen.randint(1, 4)):
        at, count = chosen.randrange(len(made) + 1), chosen.choice((1, 1, 2, 4, 7, 30))
        piece = chosen.choice((bytes(chosen.randrange(256) for _ in range(count)), bytes(count), bytes(made[at : at + count]), b""))
        made[at : at + chosen.choice((0, len(piece), count))] = piece
    return bytes(made)


def see_cuts(program, calls, count):
    """Certificates whole and damaged, one of them longer than what the program reads of a file in one call. Each is answered in pieces of
    one to nine bytes as it is whole, and by the program as by the calls of the library."""
    chosen = random.Random(4096)
    long = story(NOP * 700 + QUIT)
    long_listed = certificate(long, range(CODE, CODE + 701))
    assert len(long_listed) > 5000
    at_edge = [listed for at in range(4093, 4100) for listed in (long_listed[:at], changed(long_listed, at, long_listed[at] ^ 128))]
    with_lists = [files["certificate"] for _, files, _ in NAMINGS]
    for name, made, listed, others in [
        ("plain", PLAIN, PLAIN_LISTED, []), ("calling", CALLING, CALLING_LISTED, []), ("long", long, long_listed, at_edge), ("lists", NAMED, with_lists[0], with_lists[1:]),
    ]:
        see_group(program, calls, count, f"cuts, {name}", made, [listed, *others])
        for group in range(10):
            see_group(program, calls, count, f"cuts, {name}, at random {group}", made, [at_random(listed, chosen) for _ in range(15)])
    for group in range(5):
        drawn = [drawn_certificate(chosen) for _ in range(5)]
        see_group(program, calls, count, f"cuts, any lists, at random {group}", TABLE, [*drawn, *(damaged(it, chosen) for it in drawn)])


def see_group(program, calls, count, name, made, listed):
    """What is answered of these certificates: a line for each, and none that tells of another answer."""
    files = {str(number): file for number, file in enumerate(listed)}
    answer = calls.run(["cuts", "story", *files], {"story": made, **files})
    told = answer.output.decode().splitlines()
    count.see(answer.status == 0 and not answer.errors and len(told) == len(files), f"{name}: {answer}")
    run = lambda file: program.run(["check", "story", "certificate"], {"story": made, "certificate": file})
    for number, line, checked in zip(files, told, side_by_side(run, listed)):
        wanted = Answer(0, f"{line}\n".encode(), b"") if line.startswith("accepted") else Answer(1, b"", f"refused: {line}\n".encode())
        count.is_answer(f"{name}, {number}", checked, wanted)


def see_refused(program, count, name, files, code):
    for words in (["check"], ["play"]):
        answer = program.run([*words, "story", "certificate"], files)
        count.is_answer(f"{name}, {words}", answer, Answer(1, b"", f"refused: {code}\n".encode()))


def see_bytes(program, count):
    for name, at, new, code, played in STORY_BYTES:
        made = changed(PLAIN, at, new)
        files = {"story": made, "certificate": PLAIN_LISTED}
        if code is None:
            count.is_answer(name, program.run(["check", "story", "certificate"], files), Answer(0, b"accepted\n", b""))
            count.is_answer(name, program.run(["play", "story", "certificate"], files), played)
        else:
            see_refused(program, count, name, files, code)
        if played is not None:
            count.is_answer(f"{name}, checked", program.run(["play", "story"], files), played)
    for name, at, new, code in CERTIFICATE_BYTES:
        see_refused(program, count, name, {"story": PLAIN, "certificate": changed(PLAIN_LISTED, at, *new)}, code)


def see_lengths(program, count):
    """A story of other lengths, and each beginning of a certificate."""
    cases = [(f"{length} bytes of a story", {"story": PLAIN[:length], "certificate": PLAIN_LISTED}, "L1" if length < 64 else "L4") for length in range(len(PLAIN))]
    cases += [(f"{length} bytes of a certificate", {"story": PLAIN, "certificate": PLAIN_LISTED[:length]}, "K3") for length in range(len(PLAIN_LISTED))]
    for (name, _, code), answer in zip(cases, side_by_side(lambda case: program.run(["check", "story", "certificate"], case[1]), cases)):
        count.is_answer(name, answer, Answer(1, b"", f"refused: {code}\n".encode()))
    for words in (["play", "story"], ["play", "story", "certificate"]):
        longer = {"story": PLAIN + b"\0", "certificate": PLAIN_LISTED}
        count.is_answer(f"a byte more, {words}", program.run(words, longer), HELLO_IS_PRINTED)


def altered_at(file, places):
    """The file with each of these bytes altered in four ways."""
    for at in places:
        for new in sorted({0, 255, file[at] ^ 1, file[at] ^ 128} - {file[at]}):
            yield changed(file, at, new)


def changes(file):
    """The file with each byte altered in four ways, and each beginning of it, with a name for each."""
    for at in range(len(file)):
        for made in altered_at(file, [at]):
            yield f"byte {at} as {made[at]}", made
    for length in range(len(file)):
        yield f"the first {length} bytes", file[:length]


class Altered:
    """The two programs, and what the story plays like that isn't altered."""

    def __init__(self, program, calls, story):
        self.program, self.calls = program, calls
        self.story, self.plain = story, self.plays({"story": story})

    def plays(self, files):
        return self.program.run(["play", "--budget", "1000", "story"], files)

    def what_is_wrong(self, files):
        """What is wrong with the answers for these files, if anything."""
        accepted = self.program.run(["check", "story", "certificate"], files)
        plain = self.plain if files["story"] == self.story else self.plays(files)
        by_certificate = self.program.run(["play", "--budget", "1000", "story", "certificate"], files)
        if accepted.status == 0:
            both = self.calls.run(["story", "certificate"], files)
            well = accepted.output == b"accepted\n" and plain == by_certificate and plain.status == 0 and PLAYED.fullmatch(plain.errors)
            well = well and both.status == 0 and ALIKE.fullmatch(both.output)
            return None if well else f"{accepted}; played: {plain}; by the certificate: {by_certificate}; side by side: {both}"
        if accepted.status != 1 or accepted.output or not REFUSED.fullmatch(accepted.errors) or by_certificate != accepted:
            return f"{accepted}; by the certificate: {by_certificate}"
        named = {0: PLAYED, 1: REFUSED, 3: FAULT}.get(plain.status)
        return None if named and named.fullmatch(plain.errors) else f"played: {plain}"


def see_each(program, calls, count, name, made, listed):
    altered = Altered(program, calls, made)
    cases = [(f"{name}, story, {what}", {"story": file, "certificate": listed}) for what, file in changes(made)]
    cases += [(f"{name}, certificate, {what}", {"story": made, "certificate": file}) for what, file in changes(listed)]
    for (what, _), wrong in zip(cases, side_by_side(lambda case: altered.what_is_wrong(case[1]), cases)):
        count.see(not wrong, f"{what}: {wrong}")


def see_lists(program, calls, count):
    """A table of routines by a certificate of version 2: each byte of the code altered, and of the certificate but in the midst of the globals."""
    altered = Altered(program, calls, TABLE)
    files = [{"story": made, "certificate": LISTED} for made in altered_at(TABLE, range(CODE, len(TABLE)))]
    files += [{"story": TABLE, "certificate": listed} for listed in alterations(LISTED) if len(listed) == len(LISTED)]
    for number, wrong in enumerate(side_by_side(altered.what_is_wrong, files)):
        count.see(not wrong, f"lists, altered {number}: {wrong}")


class AlteredMarks:
    """The program, and what the story plays like that isn't altered. With marks a play may meet a fault: the one that is met with no certificate."""

    def __init__(self, program):
        self.program = program
        self.plain = self.plays({"story": MADE})

    def plays(self, files):
        return self.program.run(["play", "--budget", "1000", "story"], files)

    def what_is_wrong(self, files):
        accepted = self.program.run(["check", "story", "certificate"], files)
        by_certificate = self.program.run(["play", "--budget", "1000", "story", "certificate"], files)
        unread = refusal(files["certificate"])
        if unread or accepted.status:
            named = accepted.errors == f"refused: K{unread}\n".encode() if unread else REFUSED.fullmatch(accepted.errors) and b"K" not in accepted.errors
            well = accepted.status == 1 and not accepted.output and named and by_certificate == accepted
            return None if well else f"{accepted}; by the certificate: {by_certificate}; the reader says K{unread}"
        plain = self.plain if files["story"] == MADE else self.plays(files)
        told = b"accepted, marked: %d\n" % marks_of(files["certificate"]) if marks_of(files["certificate"]) else b"accepted\n"
        well = accepted == Answer(0, told, b"") and self.is_alike(plain, by_certificate, files["certificate"][19:21])
        return None if well else f"{accepted}; played: {plain}; by the certificate: {by_certificate}"

    def is_alike(self, plain, by_certificate, limit):
        """The play by a certificate that lets no frame stand above the first ends where the other calls a routine."""
        if limit == bytes(2) and by_certificate.errors == b"end: frame limit\n":
            return by_certificate.status == 0 and plain.output.startswith(by_certificate.output)
        named = {0: PLAYED, 3: FAULT}.get(plain.status)
        return plain == by_certificate and named is not None and named.fullmatch(plain.errors)


def see_marks(program, count):
    """A certificate with marks, and its story: each byte of either altered, but of the story's tables."""
    altered, ends = AlteredMarks(program), [0x40, 0x41, 0x42, 0x43, *range(CODE, len(MADE))]
    files = [{"story": made, "certificate": BOTH} for made in altered_at(MADE, ends)]
    files += [{"story": MADE, "certificate": listed} for listed in altered_at(BOTH, range(len(BOTH)))]
    for number, wrong in enumerate(side_by_side(altered.what_is_wrong, files)):
        count.see(not wrong, f"marks, altered {number}: {wrong}")


def main():
    program, calls = Program(sys.argv[1]), Program(sys.argv[2])
    count = Count("altered")
    assert (len(PLAIN), len(PLAIN_LISTED), PLAIN[0x1C:0x1E].hex(), PLAIN[CODE:].hex()) == (810, 1001, "3a7a", "b23551c685ba")
    see_bytes(program, count)
    see_lengths(program, count)
    see_pieces(calls, count, PLAIN, IN_PIECES)
    see_pieces(calls, count, TABLE, LISTS_IN_PIECES)
    see_cuts(program, calls, count)
    see_each(program, calls, count, "plain", PLAIN, PLAIN_LISTED)
    see_each(program, calls, count, "calling", CALLING, CALLING_LISTED)
    see_lists(program, calls, count)
    see_marks(program, count)
    count.end()


if __name__ == "__main__":
    main()
