"""Stories and certificates that are dear to search and to check: each call ends within a limit of processor time, with the answer that is known.

Each is made by hand after the standard. The limit is generous: on a quiet machine no call takes a quarter of it.
"""
import resource
import struct
import subprocess
import tempfile
from pathlib import Path

from program import Answer
from samples import CODE, QUIT, STATIC, certificate, interval, story, word

SECONDS = 20
RTRUE = b"\xb0"


def call(packed):
    """A call of a routine, whose result goes to the last global."""
    return b"\xe0\x3f" + word(packed) + b"\xff"


def within_time(program, words, files):
    """What a call comes to that may take so much of a processor, and what it wrote under the name of a certificate."""
    with tempfile.TemporaryDirectory(prefix="zpc-") as room:
        for name, contents in files.items():
            Path(room, name).write_bytes(contents)
        done = subprocess.run(
            [program.path, *words], cwd=room, capture_output=True, timeout=600,
            preexec_fn=lambda: resource.setrlimit(resource.RLIMIT_CPU, (SECONDS, SECONDS)),
        )
        written = Path(room, "certificate")
        return Answer(done.returncode, done.stdout, done.stderr), written.read_bytes() if written.exists() else b""


def in_routine(code, locals_, room=0):
    """A story that calls a routine of this code, with so many locals, and quits."""
    begin = CODE + room
    head = (begin + 6 + 1) // 2 * 2
    before = call(head // 2) + QUIT
    return story(before.ljust(head - begin, b"\0") + bytes([locals_]) + bytes(2 * locals_) + code, room=room)


def one_by_one(stages):
    """storeb TABLE 0 1; and so many stages, of which each loads a byte and, where that isn't 0, stores the next one: loadb TABLE k -> 1;
    jz 1 ?on; storeb TABLE k+1 1. Each store is found only once the byte was opened that is loaded before it."""
    code = b"\xe2\x07" + word(STATIC) + word(0) + b"\x01"
    for stage in range(stages):
        code += b"\xd0\x0f" + word(STATIC) + word(stage) + b"\x01" + b"\xa0\x01\xc9" + b"\xe2\x07" + word(STATIC) + word(stage + 1) + b"\x01"
    return in_routine(code + RTRUE, 1, stages + 2 + stages % 2)


def one_by_one_everywhere(count, routines, constants, locals_):
    """Each of so many routines is called by a constant; so many constants are stored; then a routine counts one local without end, and another
    from the first of the routines to the last, and each time makes so many calls of any of those up to there. So all of them are called again
    for each threshold at which a local stops."""
    heads = (bytes([locals_]) + RTRUE) * routines + RTRUE * 32
    first = CODE + len(heads) + len(heads) % 2
    before = heads.ljust(first - CODE, b"\0") + b"".join(call(CODE // 2 + number) for number in range(routines))
    before += b"".join(b"\xcd\x4f\xfe" + word(1000 + 100 * number) for number in range(constants))
    head = (CODE + len(before) + 6 + 1) // 2 * 2
    before = (before + call(head // 2) + QUIT).ljust(head - CODE, b"\0") + bytes([15]) + bytes(30)
    loop = b"\x54\x02\x01\x02" + b"\xe0\xaa\x01\x03\x04\x05\xff" * count
    loop += b"\xc5\x4f\x01" + word(CODE // 2 + routines - 1) + b"\xc5"
    loop += b"\x8c" + struct.pack(">h", -len(loop) - 1)
    return story(before + b"\xcd\x4f\x01" + word(CODE // 2) + loop + RTRUE, first)


def stored_anywhere(stores):
    """A local is counted without end, and before each count a byte is stored so far behind a table: storeb TABLE 2 1. No bound of a place keeps
    the last stores from other bytes, which intervals find; with lists each count is a word more, and the work that they may take ends first."""
    loop = (b"\x54\x02\x01\x02" + b"\xe2\x2b" + word(STATIC) + b"\x02\x01") * stores
    return in_routine(loop + b"\x8c" + struct.pack(">h", -len(loop) - 1), 2, 20000)


def ended_one_by_one(count):
    """So many calls, each of a routine that jumps to itself: a walk says of one after the other that it gives something."""
    heads = b"\0\x8c\xff\xff" * count
    first = CODE + len(heads)
    return story(heads + b"".join(call(CODE // 2 + 2 * number) for number in range(count)) + QUIT, first)


def called_below_words(routines, calls, height, locals_):
    """So many calls, each of any of so many routines, in a routine with so many locals and words on its stack; and the certificate."""
    first = CODE + 2 * routines
    head = first + 6
    count = routines + 1
    pushes = b"\xe8\x7f\0" * height
    made = story(
        (b"\0" + RTRUE) * routines + call(head // 2) + QUIT + bytes([locals_]) + bytes(2 * locals_) + pushes + b"\xe0\xbf\x10\x01" * calls + RTRUE,
        first,
    )
    made = bytearray(made)
    made[0x40:0x42] = word(CODE // 2)
    made[0x1C:0x1E] = word(sum(made[64:]) % 65536)
    own = {16: (CODE // 2, CODE // 2 + routines - 1), 255: (0, 1)}
    begin = head + 1 + 2 * locals_
    sets = interval(0, 1) + interval(0, 0) * (locals_ - 1)
    inside = {CODE + 2 * number + 1: (number + 1, b"") for number in range(routines)}
    stacks, at = {}, begin
    for words in range(height + calls + 1):
        inside[at] = (count, sets)
        stacks[at] = interval(0, 0) * min(words, height)
        at += 3 if words < height else 4
    addresses = sorted([*inside, first, first + 5])
    known = [(CODE + 2 * number, 0, (1, 1)) for number in range(routines)] + [(head, locals_, (1, 1))]
    return bytes(made), certificate(bytes(made), addresses, routines=known, inside=inside, stacks=stacks, own=own)


def see_searches(program, count):
    for name, made, wanted in (
        ("bytes opened one by one", one_by_one(6500), b"found\n"),
        ("calls of any of 1,000 routines", one_by_one_everywhere(200, 1000, 190, 15), b"found\n"),
        ("stores anywhere", stored_anywhere(3000), None),
        ("routines that never return", ended_one_by_one(11000), b"found\n"),
    ):
        answer, listed = within_time(program, ["find", "--strict", "story", "certificate"], {"story": made})
        if wanted is None:
            count.is_answer(name, answer, Answer(1, b"", b"refused: G2\nno certificate: I9 at 05153\n"))
            continue
        count.is_answer(name, answer, Answer(0, wanted, b""))
        answer, _ = within_time(program, ["check", "story", "made"], {"story": made, "made": listed})
        count.is_answer(f"{name}, as it was found", answer, Answer(0, b"accepted\n", b""))


def see_checks(program, count):
    made, listed = called_below_words(30000, 17100, 60, 15)
    answer, _ = within_time(program, ["check", "story", "made"], {"story": made, "made": listed})
    count.is_answer("calls of any of 30,000 routines above 75 sets", answer, Answer(0, b"accepted\n", b""))


def see_dear(program, count):
    see_searches(program, count)
    see_checks(program, count)
