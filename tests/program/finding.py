"""Runs of `find` and `explain`: what is written, where, and what is said of stories that have no certificate."""
import json
import os
import re
import subprocess
import tempfile

from orders import FAULTS, played
from program import Answer, side_by_side
from samples import CODE, HELLO, NEW_LINE, NOP, QUIT, STATIC, certificate, changed, interval, story, with_objects, word

HERE = os.path.dirname(os.path.abspath(__file__))
SAMPLE = story(HELLO + QUIT)

# ---- stories that are found: name, story, what is played

FOUND = [
    ("a text", SAMPLE, b"hello"),
    ("a new line", story(NEW_LINE + QUIT), b"\n"),
    ("words and objects", with_objects(), b""),
    # je 5 5 ?~(rtrue), which main code may not do, is never taken; print_num 7
    ("a branch that isn't taken", story(b"\x01\x05\x05\x41" + QUIT), None),
    # store local through a loop: globals count from 0 on: inc 16; jump back
    ("a loop that never ends", story(b"\x95\x10" + b"\x8c\xff\xfd"), None),
]


def found_by_more():
    """Stories that are found by more than what they list, or by what a routine is said to give that never returns."""
    return [
        ("a call of what the stack names", CALLS_BY_STACK, b""),
        ("a call of what a local names", CALLS_UNLISTED, b""),
        ("a division by what is never given", DIVIDES, b""),
        ("a call of any of 1,100", calls_many(1100), b""),
    ]


# ---- stories that are found, whatever a number in them is, and what a play of 2,000 steps comes to

# call 32e: its local at 331, here this number; print_num of what it gives; quit. jz local 1 ?(rtrue); rfalse
CALLED = b"\xe0\x3f\x01\x97\x00\xe6\xbf\x00\xba\x00\x01\x00"


def families():
    for number in range(256):
        before = NOP * number
        yield f"{number} nops, and its number printed", story(before + b"\xe6\x7f" + bytes([number]) + QUIT), Answer(0, b"%d" % number, b"")
        yield f"{number} nops, and a global that counts up for ever", story(before + b"\x95\x10\x8c\xff\xfd"), Answer(0, b"", b"end: budget\n")
        called = story(CALLED + bytes([number]) + b"\xa0\x01\xc1\xb1")
        yield f"a routine that tells whether {number} is 0", called, Answer(0, b"1" if number == 0 else b"0", b"")


# ---- single stories: name, story, what is typed, what a play of 2,000 steps comes to

# call 380 with no argument; quit; and at 380 a routine of one local: get_child 1 -> local 1
WITH_CHILD = b"\xe0\x3f\x01\xc0\x00\xba" + bytes(10) + b"\x01\x00\x00\x92\x01\x01"
SINGLE = [
    ("a sum that is printed", story(b"\x0d\x10\x05\xe6\xbf\x10" + QUIT), b"", Answer(0, b"5", b"")),
    ("an object moved into another", with_objects(b"\x0e\x01\x02" + QUIT), b"", Answer(0, b"", b"")),
    # ?(rfalse where it is none); jz local 1 ?(rfalse); get_parent local 1 -> stack; rtrue
    ("a child that is there, and its parent", with_objects(WITH_CHILD + b"\xc2\xa0\x01\xc0\xa3\x01\x00\xb0"), b"", Answer(0, b"", b"")),
    # ?~(rfalse); print_obj local 1; rtrue
    ("a child that is there, and its name", with_objects(WITH_CHILD + b"\x40\xaa\x01\xb0"), b"", Answer(0, b"b", b"")),
    ("a store right below static memory", with_objects(b"\xe1\x17\x02\x98\x00\x07" + QUIT), b"", Answer(0, b"", b"")),
    (
        "routines that call themselves for ever",
        story(HELLO + b"\xe0\x3f\x01\x98\x00\xba\0\0\xe0\x3f\x01\x98\x00\xb8"),
        b"",
        Answer(0, b"hello", b"end: frame limit\n"),
    ),
    ("a line that is read", with_objects(b"\xe4\x0f\x02\x80\x02\x90" + QUIT), b"look,at\n", Answer(0, b"", b"")),
    ("a save, and a restore", story(b"\xb5\xc2\xb6\xc2" + QUIT), b"", Answer(0, b"", b"")),
]

# ---- stories for which none is found: name, story, the two lines

NEVER_THERE = story(b"\x01\x01\x02\xc3" + QUIT + b"\xbe")


def calls_by_local(packed):
    """Calls 32e, quits; there, with a local: stores a packed address in it, calls what is there, returns 1. At 33c a routine that returns 1."""
    return story(b"\xe0\x3f\x01\x97\x00" + QUIT + bytes(4) + b"\x01\0\0" + b"\xcd\x4f\x01" + packed + b"\xe0\xbf\x01\x00\xb0" + b"\0\0\xb0")


CALLS_UNLISTED = calls_by_local(b"\x01\x9e")
STORED = interval(0x19E, 0x19E)
LISTING_MORE = certificate(
    CALLS_UNLISTED,
    [0x324, 0x329, 0x331, 0x336, 0x33A, 0x33D],
    routines=[(0x32E, 1, (1, 1)), (0x33C, 0, (1, 1))],
    inside={0x331: (1, interval(0, 0)), 0x336: (1, STORED), 0x33A: (1, STORED), 0x33D: (2, b"")},
    stacks={0x329: interval(1, 1), 0x33A: interval(1, 1)},
)

# call 32e -> stack; div 10 that -> 16; quit; and 32e never returns. So it may be said to give 1, and not 0
DIVIDES = story(b"\xe0\x3f\x01\x97\x00\x37\x0a\x00\x10" + QUIT + b"\0" + QUIT)
DIVIDES_BY_ONE = certificate(
    DIVIDES, [0x324, 0x329, 0x32D, 0x32F], routines=[(0x32E, 0, (1, 1))], inside={0x32F: (1, b"")}, stacks={0x329: interval(1, 1)}, own={16: (0, 10)}
)

# call 332 -> stack; je that 7 ?32f; print_obj 0; nop, at 32f; quit; and 332 never returns: the callers may bear 7 alone, which isn't tried
BEARS_SEVEN = story(b"\xe0\x3f\x01\x99\x00\x41\x00\x07\xc4\x9a\x00" + NOP + QUIT + bytes(2) + QUIT)
GIVES_SEVEN = certificate(
    BEARS_SEVEN, [0x324, 0x329, 0x32F, 0x330, 0x333], routines=[(0x332, 0, (7, 7))], inside={0x333: (1, b"")}, stacks={0x329: interval(7, 7)}
)

# push 197; call that -> 18; quit; the routine at 32e stores 19e in its local, calls that, and returns 1; so does the one at 33c
CALLS_BY_STACK = story(b"\xe8\x3f\x01\x97\xe0\xbf\x00\x12" + QUIT + b"\0" + b"\x01\0\0\xcd\x4f\x01\x01\x9e\xe0\xbf\x01\x00\xb0\0" + b"\0\xb0")


def calls_many(count):
    """je 1 2 ?far; random count -> stack; add that and what is before the first routine -> stack; call that -> 16; quit; far: a call of each,
    quit; and the routines, which return 1."""
    calls = CODE + 6 + 5 + 6 + 4 + 1
    first = (calls + 5 * count + 2) // 2
    code = b"\xc1\x5f\x01\x02" + word(0x8000 | calls - (CODE + 6) + 2) + b"\xe7\x3f" + word(count) + b"\0" + b"\xd4\x8f\0" + word(first - 1) + b"\0" + b"\xe0\xbf\0\x10" + QUIT
    code += b"".join(b"\xe0\x3f" + word(first + k) + b"\x10" for k in range(count)) + QUIT
    return story(code.ljust(2 * first - CODE, b"\0") + b"\0\xb0" * count)


# je 1 2 ?32a; quit; there a call of 192, which is 324: no head, since its count would be 193
CALLS_ITS_START = story(b"\xc1\x5f\x01\x02\xc3" + QUIT + b"\xe0\x3f\x01\x92\x00" + QUIT)

# At 51c6, in a story with room: call 51e6 -> stack; storeb 260 that 0; call 51d8; quit. 51d8 calls 51f6, which never returns, and where that
# gives 7, returns 1; else print_obj 0. 51e6 counts its local up to 20,000, in a loop, and returns 1 less or 0, so that the walk that widens
# nothing doesn't end.
ROOM = 0x5100 - STATIC
STORES_FARTHER = story(
    b"\xe0\x3f\x28\xf3\x00\xe2\x27\x02\x60\x00\x00\xe0\x3f\x28\xec\x00" + QUIT + b"\0"
    + b"\0" + b"\xe0\x3f\x28\xfb\x00\x41\x00\x07\xc4\x9a\x00\xb0\0"
    + b"\x01\0\0" + b"\xbd\xca\xc5\x4f\x01\x4e\x20\x3f\xf9\xb1\xab\x01\0"
    + b"\0" + QUIT,
    room=ROOM,
)
COUNTED = interval(0, 20000)
STORES_WITHIN = certificate(
    STORES_FARTHER,
    [0x51C6, 0x51CB, 0x51D1, 0x51D6, 0x51D9, 0x51DE, 0x51E4, 0x51E9, 0x51EB, 0x51F2, 0x51F3, 0x51F7],
    routines=[(0x51D8, 0, (1, 1)), (0x51E6, 1, (0, 20000)), (0x51F6, 0, (7, 7))],
    inside={
        **{at: (1, b"") for at in (0x51D9, 0x51DE, 0x51E4)},
        **{at: (2, COUNTED) for at in (0x51E9, 0x51EB, 0x51F3)},
        0x51F2: (2, interval(20001, 20001)),
        0x51F7: (3, b""),
    },
    stacks={0x51CB: COUNTED, 0x51D6: interval(1, 1), 0x51DE: interval(7, 7)},
)


def counts_for_ever(number):
    """So many nops; call 332 -> 16; quit; and 332 counts its local for ever: inc it; print_obj 0; jump back. Where the walk that widens nothing
    is looked at first, another of the three is to be visited yet with each number from 0 to 2, and hides what else is broken there."""
    return story((NOP * number + b"\xe0\x3f\x01\x99\x10" + QUIT).ljust(14, b"\0") + b"\x01\0\0" + b"\x95\x01\x9a\x00\x8c\xff\xfb")


NONE = [
    ("a byte that is no opcode", story(b"\xbe"), ("G1 at 00324", "no certificate: I1 at 00324")),
    ("a jump out of memory", story(b"\x8c\x7f\xff"), ("G1 at 08324", "not found")),
    ("a jump below 0", story(b"\x8c\xf0\x00"), ("G1 at -3291", "not found")),
    ("a jump by the stack", story(b"\xac\x00"), ("G1 at 00324", "not found")),
    # je 1 2 ?329, where no instruction stands; quit. It has a certificate, by hand
    ("no instruction where play never comes", NEVER_THERE, ("G1 at 00329", "not found")),
    # and so have this one, which never calls, and the next
    ("a head where play begins, and where play never calls", CALLS_ITS_START, ("G1 at 00324", "not found")),
    ("a store to what is opened farther and farther", STORES_FARTHER, ("G1 at 051e2", "not found")),
    ("a routine that never returns, and may give 7 alone", BEARS_SEVEN, ("G1 at 0032d", "not found")),
    *((f"what is broken where it is still visited, {number} late", counts_for_ever(number), ("G1 at 00337", "no certificate: I5 at 00337")) for number in range(3)),
    ("a pull of an empty stack", story(b"\xe9\x7f\x10" + QUIT), ("G1 at 00324", "no certificate: I2 at 00324")),
    ("a return of the main code", story(b"\xb0"), ("G1 at 00324", "no certificate: I13 at 00324")),
    ("the parent of object 0", story(b"\x93\x00\x10" + QUIT), ("G1 at 00324", "no certificate: I5 at 00324")),
    # call 380; quit; there get_child 1 -> local 1 ?(rfalse where it is none); get_parent local 1 -> stack, which may be of object 0
    (
        "a parent of what may be none",
        with_objects(WITH_CHILD + b"\xc2\xa3\x01\x00\xb0"),
        ("G1 at 00387", "no certificate: I5 at 00387"),
    ),
    # a routine that is called by a local alone may be listed only where a head stands
    ("a call of what is no routine", calls_by_local(b"\x00\x01"), ("G1 at 00336", "no certificate: I12 at 00336")),
    # print_num of 1 divided by global 16, which is 0
    ("a division by 0", story(b"\x37\x01\x10\x11" + QUIT), ("G1 at 00324", "no certificate: I8 at 00324")),
]

# random 2 -> stack; loadw 33c that -> stack: one of the two routines of a table; call that -> stack; print_num that; quit; at 336 a routine that
# returns 5, at 33a one that returns 7; and behind 33c the table
TABLE = b"\xe7\x7f\x02\0\xcf\x2f\x03\x3c\0\0\xe0\xbf\0\0\xe6\xbf\0" + QUIT + b"\0\x9b\x05\0\0\x9b\x07\0"
CALLS_BY_TABLE = story(TABLE + word(0x19B) + word(0x19D))

# the same of a table with a third word, which is no routine, and is never asked for
CALLS_OF_TABLE = story(TABLE + word(0x19B) + word(0x19D) + word(0))

# ---- stories that are found with lists alone: name, story, what play may show

BY_LISTS = [
    ("a call of what a table has", CALLS_BY_TABLE, {b"5", b"7"}),
    ("a call of the first two that a table has", CALLS_OF_TABLE, {b"5", b"7"}),
]

EXPLAINED = b"""I5: an operand that has to be an object may be none, most often 0.
Rule: each value of such an operand is 1 to the count of the story's objects (Z 12.3, 15).
Do: test the local that is then used: p = parent(o); if (p == 0) rfalse; o = p; and keep no 0 or -1 in a global that
names an object. Of a table: o = things-->k; if (o >= First && o <= Last) print (object) o;
"""


CODES = [f"{letter}{number}" for letter, last in zip("LUJEKSIGFQCPNB", (12, 4, 5, 3, 9, 8, 18, 3, 16, 11, 9, 3, 2, 10)) for number in range(1, last + 1)]


def explained():
    """What each code means, as it stands in explained.txt: one text behind the other, in the order of the codes."""
    with open(os.path.join(HERE, "explained.txt"), "rb") as file:
        texts = re.split(rb"^(?=[A-Z]\d+: )", file.read(), flags=re.M)[1:]
    return [(text.split(b":")[0].decode(), text) for text in texts]


def see_explaining(program, count):
    count.is_answer("a code", program.run(["explain", "I5"]), Answer(0, EXPLAINED, b""))
    count.see([code for code, _ in explained()] == CODES, "explained.txt doesn't have each code once, in order")
    asked = lambda it: (it, program.run(["explain", it[0]]))
    for (code, text), answer in side_by_side(asked, explained()):
        count.is_answer(f"explain {code}", answer, Answer(0, text, b""))
    small = lambda it: (it, program.run(["explain", it[0].lower()]))
    for (code, text), answer in side_by_side(small, explained()[::7]):
        count.is_answer(f"explain {code} in a small letter", answer, Answer(0, text, b""))
    # Codes of instructions and of texts stand behind those of loading, with which they belong.
    texts = dict(explained())
    ordered = [code for letter in "LJEUKSGIFQCPNB" for code in texts if code[0] == letter]
    lines = b"".join(texts[code].split(b"\n")[0] + b"\n" for code in ordered)
    count.is_answer("explain all", program.run(["explain"]), Answer(0, lines, b""))
    one = program.run(["explain", "--json", "i5"])
    count.see((one.status, one.errors, json.loads(one.output)) == (0, b"", {"code": "i5", "text": EXPLAINED.decode()}), f"explain i5 as an object: {one}")
    all_told = program.run(["explain", "--json"])
    told = [json.loads(line) for line in all_told.output.splitlines()]
    count.see(told == [{"code": code, "text": texts[code].decode()} for code in ordered], f"explain all as objects: {all_told}")
    for name, script in [("a full device", '"$1" explain I5 >/dev/full'), ("a closed output", '"$1" explain I5 >&-')]:
        ran = subprocess.run(["bash", "-c", script, "run", program.path], stdin=subprocess.DEVNULL, capture_output=True, timeout=60)
        count.is_answer(f"explain to {name}", Answer(ran.returncode, ran.stdout, ran.stderr), Answer(4, b"", b"failed: write\n"))


def see_none(program, count):
    for name, made, (first, second) in NONE:
        answer, written = program.found(made, flags=["--strict"])
        count.is_answer(f"{name}, find", answer, Answer(1, b"", f"refused: {first}\n{second}\n".encode()))
        count.see(written is None, f"{name}, find: a certificate was written")
    for name, made, code in [("an empty story", b"", "L1"), ("another version", changed(SAMPLE, 0, 5), "L3"), ("words that fall", changed(with_objects(), 0x361, 0x47), "L10")]:
        answer, written = program.found(made)
        count.is_answer(f"{name}, find", answer, Answer(1, b"", f"refused: {code}\n".encode()))
        count.see(written is None, f"{name}, find: a certificate was written")
    for name, made, by_hand in [
        ("a listing that leaves out where play never comes", NEVER_THERE, certificate(NEVER_THERE, [0x324, 0x328])),
        ("a listing that leaves out a call of its beginning", CALLS_ITS_START, certificate(CALLS_ITS_START, [0x324, 0x329])),
        ("a listing of more than the story lists", CALLS_UNLISTED, LISTING_MORE),
        ("a listing of more, with stores", STORES_FARTHER, STORES_WITHIN),
        ("a routine that never returns and is said to give 1", DIVIDES, DIVIDES_BY_ONE),
        ("one that is said to give 7", BEARS_SEVEN, GIVES_SEVEN),
    ]:
        count.is_answer(name, program.run(["check", "story", "certificate"], {"story": made, "certificate": by_hand}), Answer(0, b"accepted\n", b""))
    count.is_answer("no story there to find for", program.run(["find", "absent", "certificate"]), Answer(4, b"", b"failed: file\n"))


def see_marked(program, count):
    """What has no certificate without marks has one with them: play by it is the checked machine's, and each mark is told, with its reason."""

    def seen(case):
        _, made, _ = case
        answer, written = program.found(made)
        files = {"story": made, "certificate": written or b""}
        check, lines = (program.run([verb, "story", "certificate"], files) for verb in ("check", "list"))
        places, _ = program.found(made, flags=["--places"])
        plays = [program.run(["play", "--budget", "100000", *words], files) for words in (["story"], ["story", "certificate"])]
        return answer, written, check, lines, places, plays

    for (name, _, _), (answer, written, check, lines, places, plays) in zip(NONE, side_by_side(seen, NONE)):
        marked = re.fullmatch(rb"found(?:, marked: (\d+))?\n", answer.output)
        count.see(answer.status == 0 and marked is not None and answer.errors == b"", f"{name}, find with marks: {answer}")
        if marked is None or written is None:
            continue
        many = int(marked[1] or b"0")
        count.see(written[4] == 5, f"{name}, find with marks: no certificate of version 5 was written")
        count.is_answer(f"{name}, check with marks", check, Answer(0, answer.output.replace(b"found", b"accepted"), b""))
        told = re.findall(rb"^[0-9a-f]{5} .*\nmarked: I\d+: .*\n", lines.output, flags=re.M)
        count.see(lines.status == 0 and len(told) == many, f"{name}, list with marks: {lines}")
        count.is_answer(f"{name}, find with the places of marks", places, Answer(0, answer.output + b"".join(told), b""))
        count.see(plays[0] == plays[1], f"{name}: {plays[0]}; by its marks: {plays[1]}")


def see_marked_faults(program, count):
    """A story for each fault that an instruction has of its own: its place is marked, and play by what was found meets the fault there. Left
    out are those whose object has a name that can't be decoded, which is against a rule of the story."""
    faults = [(name, operands, fault) for name, operands, own in FAULTS for fault in own if fault.number != 13 or name == "print_addr"]

    def seen(case):
        name, operands, fault = case
        files = played(name, operands, [fault])
        answer, written = program.found(files["story"], flags=["--places"])
        files["certificate"] = written or b""
        return answer, *(program.run([verb, "story", "certificate"], files) for verb in ("check", "play"))

    for (name, operands, fault), (found, checked, faulted) in zip(faults, side_by_side(seen, faults)):
        what = f"F{fault.number} of {name} {operands}"
        marks = re.match(rb"found, marked: (\d+)\n", found.output)
        count.see(found.status == 0 and marks is not None and b"\n00371 " in found.output, f"{what}, find with marks: {found}")
        count.is_answer(f"{what}, check with marks", checked, Answer(0, b"accepted, marked: %s\n" % (marks[1] if marks else b"?"), b""))
        count.is_answer(f"{what}, played by its marks", faulted, Answer(3, b"", f"fault: F{fault.number} at 00371\n".encode()))


def see_found(program, count):
    for name, made, shown in FOUND + found_by_more():
        answer, written = program.found(made)
        count.is_answer(f"{name}, find", answer, Answer(0, b"found\n", b""))
        if written is None:
            count.see(False, f"{name}, find: no certificate was written")
            continue
        files = {"story": made, "certificate": written}
        count.is_answer(f"{name}, check of what was found", program.run(["check", "story", "certificate"], files), Answer(0, b"accepted\n", b""))
        plain, listed = (program.run(["play", "--budget", "1000", *words], files) for words in (["story"], ["story", "certificate"]))
        count.see(plain == listed and (shown is None or plain.output == shown), f"{name}: {plain}; by what was found: {listed}; wanted was {shown}")


def see_lists(program, count):
    """With intervals each breaks a rule, and what is found is of version 2."""
    for name, made, shown in BY_LISTS:
        answer, written = program.found(made)
        count.is_answer(f"{name}, find", answer, Answer(0, b"found\n", b""))
        count.see(written is not None and written[4] == 2, f"{name}, find: no certificate of version 2 was written")
        if written is None:
            continue
        files = {"story": made, "certificate": written}
        count.is_answer(f"{name}, check of what was found", program.run(["check", "story", "certificate"], files), Answer(0, b"accepted\n", b""))
        plays = [[program.run(["play", "--seed", f"{seed}", *words], files) for seed in range(1, 9)] for words in (["story"], ["story", "certificate"])]
        count.see(plays[0] == plays[1] and {it.output for it in plays[0]} == shown, f"{name}: {plays[0]}; by what was found: {plays[1]}; wanted was {shown}")


def see_families(program, count):
    """Each is found, and what was found is played as the whole of its answer says, on both machines."""

    def both(case):
        _, made, typed, _ = case
        answer, written = program.found(made)
        if answer != Answer(0, b"found\n", b"") or written is None:
            return answer, answer
        files = {"story": made, "certificate": written}
        return [program.run(["play", "--budget", "5000", *words], files, typed=typed) for words in (["story"], ["story", "certificate"])]

    cases = [*((name, made, b"", wanted) for name, made, wanted in families()), *SINGLE]
    for (name, _, _, wanted), (plain, listed) in zip(cases, side_by_side(both, cases)):
        count.see(plain == wanted and listed == wanted, f"{name}: {plain}; by what was found: {listed}; wanted was {wanted}")


def see_files(program, count):
    """Where the certificate is written: whole, before a word is said, and never in part over an old one."""
    with tempfile.TemporaryDirectory(prefix="zpc-") as room:
        with open(os.path.join(room, "story"), "wb") as file:
            file.write(SAMPLE)
        run = lambda script: subprocess.run(["bash", "-c", script, "run", program.path], cwd=room, stdin=subprocess.DEVNULL, capture_output=True, timeout=60)
        for name, script, wanted in [
            ("a certificate over a file", 'printf "ZPCC old" > old; "$1" find story old && "$1" check story old', Answer(0, b"found\naccepted\n", b"")),
            ("a certificate through a link", 'printf "ZPCC old" > there; ln -s there link; "$1" find story link && "$1" check story there && test -L link', Answer(0, b"found\naccepted\n", b"")),
            ("a certificate to a folder that isn't there", '"$1" find story absent/certificate', Answer(4, b"", b"failed: file\n")),
            ("a certificate over a folder", 'mkdir folder; "$1" find story folder', Answer(4, b"", b"failed: file\n")),
            ("a certificate to a full device", '"$1" find story /dev/full', Answer(4, b"", b"failed: file\n")),
            ("found, to a full device", '"$1" find story first >/dev/full; "$1" check story first', Answer(0, b"accepted\n", b"failed: write\n")),
            ("found, to a closed output", '"$1" find story second >&-; "$1" check story second', Answer(0, b"accepted\n", b"failed: write\n")),
            ("no part left", 'ls *.part 2>/dev/null; true', Answer(0, b"", b"")),
            ("a story from a pipe", '"$1" find <(cat story) third && "$1" check story third', Answer(0, b"found\naccepted\n", b"")),
            ("none found, and an old one", 'printf "\\276" | cat > bad; printf ZPCCold > kept; "$1" find bad kept; cat kept', Answer(0, b"ZPCCold", b"refused: L1\n")),
        ]:
            ran = run(script)
            count.is_answer(name, Answer(ran.returncode, ran.stdout, ran.stderr), wanted)


def see_finding(program, count):
    see_explaining(program, count)
    see_none(program, count)
    see_marked(program, count)
    see_marked_faults(program, count)
    see_found(program, count)
    see_lists(program, count)
    see_families(program, count)
    see_files(program, count)
