"""Runs of `check` and `find` on many files, as lines and as objects. Each line is worked out by hand."""
import hashlib
import json
import os
import tempfile

from program import Answer
from samples import HELLO, NOP, QUIT, certificate, story

SAMPLE = story(HELLO + QUIT)
ITS_CERTIFICATE = certificate(SAMPLE, [0x324, 0x329])
# `hello` isn't followed by what is listed: I4 at 00324.
BROKEN = certificate(SAMPLE, [0x324])
# `set_window` isn't played.
WINDOW = story(NOP + b"\xeb\x7f\0" + QUIT)

FILES = {
    "good.z3": SAMPLE, "good.cert": ITS_CERTIFICATE,
    "broken.z3": SAMPLE, "broken.cert": BROKEN,
    "alone.z3": SAMPLE,
    "noise.z3": b"\xff" * 1000000,
    "other.Z3": SAMPLE, "other.cert": ITS_CERTIFICATE,
    "cut.z3": SAMPLE[:-1], "cut.cert": ITS_CERTIFICATE,
    "taken.z3": SAMPLE, "taken.cert": b"letter",
    "window.z3": WINDOW,
}

ENOUGH = "what follows the instruction isn't known well enough"
CHECKED = {
    "good.z3": "accepted", "other.Z3": "accepted",
    "broken.z3": f"refused: I4 at 00324: {ENOUGH}",
    "alone.z3": "failed: file: cannot read 'alone.cert': no such file",
    "noise.z3": "refused: L2: the file is too long to be a story of version 3",
    "cut.z3": "refused: L4: the length that the header states can't be",
    "taken.z3": "refused: K1: the file is no certificate",
    "missing.z3": "failed: file: cannot read 'missing.z3': no such file",
}

# ---- check: name, files, status, the last line

CHECKS = [
    ("one", ["good.z3"], 0, "1 file: 1 accepted"),
    ("two stories", ["good.z3", "other.Z3"], 0, "2 files: 2 accepted"),
    ("one twice", ["good.z3", "good.z3"], 0, "2 files: 2 accepted"),
    ("one that is refused", ["broken.z3"], 1, "1 file: 0 accepted, 1 refused"),
    ("a refused one among good ones", ["good.z3", "broken.z3", "other.Z3"], 1, "3 files: 2 accepted, 1 refused"),
    ("one that isn't there", ["missing.z3"], 4, "1 file: 0 accepted, 1 failed"),
    ("one with no certificate beside it", ["alone.z3"], 4, "1 file: 0 accepted, 1 failed"),
    ("all", list(CHECKED), 4, "8 files: 2 accepted, 4 refused, 2 failed"),
]

# ---- find: name, flags, files, what is told of each, status, the last line, files that are written

FOUND = {"good.z3": "found", "alone.z3": "found", "other.Z3": "found", "window.z3": "refused: G1 at 00325: no instruction stands there"}
FORCED = {**FOUND, "taken.z3": "found"}
KEPT = {**FOUND, "taken.z3": "refused: N1: the file that a certificate is to be kept in holds something else"}
FINDS = [
    ("one", [], ["alone.z3"], FOUND, 0, "1 file: 1 found", ["alone.cert"]),
    ("two stories", [], ["alone.z3", "other.Z3"], FOUND, 0, "2 files: 2 found", ["alone.cert", "other.cert"]),
    ("one whose file holds something else", [], ["taken.z3", "alone.z3"], KEPT, 1, "2 files: 1 found, 1 refused", ["alone.cert"]),
    ("one that is forced", ["--force"], ["taken.z3"], FORCED, 0, "1 file: 1 found", ["taken.cert"]),
    ("one that has none", ["--strict"], ["window.z3", "good.z3"], FOUND, 1, "2 files: 1 found, 1 refused", ["good.cert"]),
    ("one that isn't there", [], ["missing.z3"], CHECKED, 4, "1 file: 0 found, 1 failed", []),
]


def head(file):
    return {"file": file, "sha256": hashlib.sha256(FILES[file]).hexdigest(), "release": 1, "serial": "260101", "checksum": sum(FILES[file][64:]) % 65536}


def verdict(file, **others):
    return {**head(file), "outcome": "refused", "marks": None, "code": None, "address": None, "text": None, **others}


NOTHING = {"sha256": None, "release": None, "serial": None, "checksum": None}
OBJECTS = [
    ("check", ["good.z3"], 0, [verdict("good.z3", outcome="accepted", marks=0)]),
    ("check", ["good.z3", "good.cert"], 0, [verdict("good.z3", outcome="accepted", marks=0)]),
    ("check", ["broken.z3"], 1, [verdict("broken.z3", code="I4", address="00324", text=ENOUGH)]),
    ("check", ["noise.z3"], 1, [{**verdict("noise.z3", code="L2", text="the file is too long to be a story of version 3"), **NOTHING}]),
    ("check", ["alone.z3"], 4, [verdict("alone.z3", outcome="failed", code="file", text="cannot read 'alone.cert': no such file")]),
    ("find", ["alone.z3"], 0, [verdict("alone.z3", outcome="found", marks=0)]),
    ("find", ["alone.z3", "new.cert"], 0, [verdict("alone.z3", outcome="found", marks=0)]),
    ("find", ["--strict", "window.z3", "taken.z3"], 1, [
        verdict("window.z3", code="G1", address="00325", text="no instruction stands there"),
        verdict("taken.z3", code="N1", text="the file that a certificate is to be kept in holds something else")]),
]


def room(files):
    folder = tempfile.TemporaryDirectory(prefix="zpc-")
    for name, contents in files.items():
        with open(os.path.join(folder.name, name), "wb") as file:
            file.write(contents)
    return folder


def read(folder, name):
    try:
        with open(os.path.join(folder, name), "rb") as file:
            return file.read()
    except OSError:
        return None


def see_found(program, count):
    for name, flags, words, said, status, last, written in FINDS:
        wanted = "".join(f"{it}: {said[it]}\n" for it in words) + f"{last}\n"
        with room(FILES) as folder:
            count.is_answer(f"find of many, {name}", program.run_in(folder, ["find", *flags, *words]), Answer(status, wanted.encode(), b""))
            for certificate_name in ("alone.cert", "other.cert", "taken.cert", "good.cert", "window.cert"):
                held = read(folder, certificate_name)
                if certificate_name in written:
                    count.see(held is not None and held.startswith(b"ZPCC"), f"find of many, {name}: {certificate_name} is kept")
                else:
                    count.see(held == FILES.get(certificate_name), f"find of many, {name}: {certificate_name} is left")


def see_objects(program, count):
    for command, words, status, wanted in OBJECTS:
        with room(FILES) as folder:
            answer = program.run_in(folder, [command, "--json", *words])
        count.see((answer.status, objects(answer), answer.errors) == (status, wanted, b""), f"{command} --json {words}: {answer}; wanted was {wanted}")


def see_listings(program, count):
    pair = {"a.z3": SAMPLE, "a.cert": ITS_CERTIFICATE}
    listed = [{"address": "00324", "routine": 0, "opcode": "print"}, {"address": "00329", "routine": 0, "opcode": "quit"}]
    for words in (["a.z3"], ["a.z3", "a.cert"]):
        answer = program.run(["list", "--json", *words], pair)
        count.see((answer.status, objects(answer), answer.errors) == (0, listed, b""), f"list --json {words}: {answer}")
    # What isn't played is marked, and told with the rule that is broken first there.
    marked = {"address": "00325", "routine": 0, "opcode": None, "marked": True, "rule": "I1"}
    with room({"window.z3": WINDOW}) as folder:
        found = program.run_in(folder, ["find", "--json", "--places", "window.z3"])
        told = objects(found)
        count.see(found.status == 0 and len(told) == 2 and told[0]["marks"] == 1 and told[1] == marked, f"find --json --places: {found}")
        answer = program.run_in(folder, ["list", "--json", "window.z3", "window.cert"])
        nop = {"address": "00324", "routine": 0, "opcode": "nop", "marked": False, "rule": None}
        count.see((answer.status, objects(answer)[:2]) == (0, [nop, marked]), f"list --json of marks: {answer}")


def objects(answer):
    return [json.loads(line) for line in answer.output.splitlines()]


def see_many(program, count, no_file, one_for_many):
    for name, words, status, last in CHECKS:
        wanted = "".join(f"{it}: {CHECKED[it]}\n" for it in words) + f"{last}\n"
        count.is_answer(f"check of many, {name}", program.run(["check", *words], FILES), Answer(status, wanted.encode(), b""))
    count.is_answer("check of no file", program.run(["check"]), Answer(2, b"", no_file))
    pair = {"a.z3": SAMPLE, "b": ITS_CERTIFICATE}
    count.is_answer("check of a story and a file of another ending", program.run(["check", "a.z3", "b"], pair), Answer(0, b"accepted\n", b""))
    count.is_answer("find with one certificate for two stories", program.run(["find", "-o", "c", "a.z3", "a.z3"], pair), Answer(2, b"", one_for_many))
    count.is_answer("find with a certificate by its flag", program.run(["find", "-o", "c", "a.z3"], pair), Answer(0, b"found\n", b""))
    see_found(program, count)
    see_objects(program, count)
    see_listings(program, count)
    with room({"a.z3": SAMPLE, "a.cert": ITS_CERTIFICATE}) as folder:
        os.mkdir(os.path.join(folder, "folder.z3"))
        told = b"folder.z3: failed: file: cannot read 'folder.z3': it is a folder\na.z3: accepted\n2 files: 1 accepted, 1 failed\n"
        count.is_answer("check of a folder among files", program.run_in(folder, ["check", "folder.z3", "a.z3"]), Answer(4, told, b""))
        thousand = program.run_in(folder, ["check", *["a.z3"] * 1000])
        count.is_answer("check of a thousand", thousand, Answer(0, b"a.z3: accepted\n" * 1000 + b"1000 files: 1000 accepted\n", b""))
