"""Runs of `info`: what a story says of itself, and what stands beside it. Each line is worked out by hand."""
import hashlib
import json
import os
import tempfile

from frames import limited
from lists import run_of
from program import Answer
from samples import CODE, HELLO, NOP, QUIT, certificate, changed, story, with_objects
from stated import stated

INFO = ["info", "story"]
SAMPLE = story(HELLO + QUIT)
ITS_CERTIFICATE = certificate(SAMPLE, [0x324, 0x329])
# One that marks the quit, and states three facts on globals.
STATING = stated(ITS_CERTIFICATE, [(0x324, 0, run_of(0, 0)), (0x324, 239, run_of(0, 9)), (0x329, 0, run_of(0, 5))], [0x329])
SUM = sum(SAMPLE[64:]) % 65536
HEAD = "release: 1\nserial: 260101\n"


def facts(length=0x32A, checksum=f"{SUM:04x}, right", objects=0, words=0, code="routines: 0\ninstructions: 2\n", unplayed="none", beside="none"):
    lines = f"{HEAD}length: {length}\nchecksum: {checksum}\nobjects: {objects}\nwords: {words}\n{code}opcodes not played: {unplayed}\ncertificate: {beside}\n"
    return Answer(0, lines.encode(), b"")


def refused(code):
    return Answer(1, b"", f"refused: {code}\n".encode())


# A routine at 32c, with one local, which the main code calls by a constant: call 32c -> global 16.
CALLING = story(b"\xe0\x3f\x01\x96\x10" + QUIT + b"\0\0" + b"\x01\0\0" + b"\xb0")
# `set_window` isn't played.
WINDOW = story(NOP + b"\xeb\x7f\0" + QUIT)
# Nor are four others. At 324 `jz sp ?333`, at 327 `set_window 1`, at 32a `split_window 5`, at 32d `call 340 -> sp`, at 332 `quit`; at 333
# `output_stream 2` of two bytes, at 337 `sound_effect 1 2 3`, at 33c `set_window sp`, at 33f `quit`; at 340 a routine with one local, at 343
# `input_stream 1` and at 346 `input_stream 0`, at 349 `rtrue`; and at 34a `set_window 0`, to which nothing leads.
SEVERAL = story(
    b"\xa0\0\xce" + b"\xeb\x7f\1" + b"\xea\x7f\5" + b"\xe0\x3f\x01\xa0\0" + QUIT + b"\xf3\x3f\0\2" + b"\xf5\x57\1\2\3" + b"\xeb\xbf\0" + QUIT + b"\1\x12\x34"
    + b"\xf4\x7f\1" + b"\xf4\x7f\0" + b"\xb0" + b"\xeb\x7f\0" + QUIT
)
SEVERAL_MET = {"unplayed_split_window": 1, "unplayed_set_window": 2, "unplayed_output_stream": 1, "unplayed_input_stream": 2, "unplayed_sound_effect": 1}
# The last byte is the type byte of a `set_window` whose operand isn't there.
CUT = story(NOP + NOP + b"\xeb\x7f")
OBJECTS = with_objects()

RUNS = [
    ("a story alone", {"story": SAMPLE}, facts()),
    ("with its certificate", {"story": SAMPLE, "story.cert": ITS_CERTIFICATE}, facts(beside="version 1, routines 0, instructions 2, marked 0, facts 0")),
    ("with one that names a limit", {"story": SAMPLE, "story.cert": limited(ITS_CERTIFICATE, 4095)}, facts(beside="version 3, frames 4095, routines 0, instructions 2, marked 0, facts 0")),
    ("with one that marks and states facts", {"story": SAMPLE, "story.cert": STATING}, facts(beside="version 5, frames 1024, routines 0, instructions 2, marked 1, facts 3")),
    ("with one that isn't accepted", {"story": SAMPLE, "story.cert": certificate(SAMPLE, [0x324])}, facts(beside="version 1, routines 0, instructions 1, marked 0, facts 0")),
    ("with one of another story", {"story": SAMPLE, "story.cert": certificate(SAMPLE, [0x324, 0x329], release=2)}, facts(beside="refused, S1")),
    ("with another file", {"story": SAMPLE, "story.cert": SAMPLE}, facts(beside="refused, K1")),
    ("with an empty one", {"story": SAMPLE, "story.cert": b""}, facts(beside="refused, K3")),
    ("with a cut one", {"story": SAMPLE, "story.cert": ITS_CERTIFICATE[:-1]}, facts(beside="refused, K3")),
    ("with objects and words", {"story": OBJECTS}, facts(len(OBJECTS), f"{sum(OBJECTS[64:]) % 65536:04x}, right", 2, 2, "routines: 0\ninstructions: 1\n")),
    ("with a routine", {"story": CALLING}, facts(len(CALLING), f"{sum(CALLING[64:]) % 65536:04x}, right", code="routines: 1\ninstructions: 3\n")),
    ("with a wrong checksum", {"story": changed(SAMPLE, 0x1C, 0x12, 0x34)}, facts(checksum=f"1234, wrong, the sum is {SUM:04x}")),
    ("with none", {"story": changed(SAMPLE, 0x1C, 0, 0)}, facts(checksum=f"none, the sum is {SUM:04x}")),
    ("with an opcode that isn't played", {"story": WINDOW}, facts(len(WINDOW), f"{sum(WINDOW[64:]) % 65536:04x}, right", code="unlisted: U1 at 00325, J3 set_window\n", unplayed="set_window 1")),
    (
        "with several of them", {"story": SEVERAL},
        facts(
            len(SEVERAL), f"{sum(SEVERAL[64:]) % 65536:04x}, right", code="unlisted: U1 at 00327, J3 set_window\n",
            unplayed="split_window 1, set_window 2, output_stream 1, input_stream 2, sound_effect 1",
        ),
    ),
    ("with one that isn't whole", {"story": CUT}, facts(len(CUT), f"{sum(CUT[64:]) % 65536:04x}, right", code="unlisted: U1 at 00326, J3 set_window\n", unplayed="set_window 1")),
    ("a serial number of other bytes", {"story": changed(SAMPLE, 0x12, 0, 0x5C)}, Answer(0, facts().output.replace(b"260101", b"\\x00\\x5c0101"), b"")),
    ("no story", {"story": bytes(64)}, refused("L3")),
    ("no story, beside a certificate", {"story": b"", "story.cert": ITS_CERTIFICATE}, refused("L1")),
    ("no file", {}, Answer(4, b"", b"failed: file\n")),
]

# ---- as objects: the files, and what is other than of the sample alone

ALONE = {
    "file": "story", "release": 1, "serial": "260101", "length": 0x32A, "checksum": SUM, "sum": SUM, "checksum_right": True, "objects": 0, "words": 0,
    "routines": 0, "instructions": 2, "code": None, "address": None, "cause": None, "opcode": None,
    **dict.fromkeys(SEVERAL_MET, 0), "certificate": None, "certificate_code": None, "certificate_readable": None,
    "certificate_version": None, "certificate_frames": None, "certificate_routines": None, "certificate_instructions": None, "certificate_marks": None, "certificate_facts": None,
}
OWN = {"certificate": "story.cert", "certificate_readable": True, "certificate_version": 1, "certificate_routines": 0, "certificate_instructions": 2, "certificate_marks": 0, "certificate_facts": 0}
OBJECT_RUNS = [
    ("a story alone", {"story": SAMPLE}, {}),
    ("with its certificate", {"story": SAMPLE, "story.cert": ITS_CERTIFICATE}, OWN),
    ("with one that names a limit", {"story": SAMPLE, "story.cert": limited(ITS_CERTIFICATE, 7)}, {**OWN, "certificate_version": 3, "certificate_frames": 7}),
    (
        "with one that marks and states facts", {"story": SAMPLE, "story.cert": STATING},
        {**OWN, "certificate_version": 5, "certificate_frames": 1024, "certificate_marks": 1, "certificate_facts": 3},
    ),
    ("with another file", {"story": SAMPLE, "story.cert": SAMPLE}, {"certificate": "story.cert", "certificate_readable": True, "certificate_code": "K1"}),
    ("with one of another story", {"story": SAMPLE, "story.cert": certificate(SAMPLE, [CODE], release=2)}, {"certificate": "story.cert", "certificate_readable": True, "certificate_code": "S1"}),
    ("with no checksum", {"story": changed(SAMPLE, 0x1C, 0, 0)}, {"checksum": 0, "checksum_right": None}),
    ("with a wrong one", {"story": changed(SAMPLE, 0x1C, 0, 1)}, {"checksum": 1, "checksum_right": False}),
    (
        "with an opcode that isn't played", {"story": WINDOW},
        {
            "length": len(WINDOW), "checksum": sum(WINDOW[64:]) % 65536, "sum": sum(WINDOW[64:]) % 65536, "routines": None, "instructions": None,
            "code": "U1", "address": "00325", "cause": "J3", "opcode": "set_window", "unplayed_set_window": 1,
        },
    ),
    (
        "with several of them", {"story": SEVERAL},
        {
            "length": len(SEVERAL), "checksum": sum(SEVERAL[64:]) % 65536, "sum": sum(SEVERAL[64:]) % 65536, "routines": None, "instructions": None,
            "code": "U1", "address": "00327", "cause": "J3", "opcode": "set_window", **SEVERAL_MET,
        },
    ),
]


def see_facts(program, count):
    for name, files, wanted in RUNS:
        count.is_answer(f"info, {name}", program.run(INFO, files), wanted)
    named = {"a.z3": SAMPLE, "a.cert": ITS_CERTIFICATE, "a.z3.cert": b""}
    count.is_answer("info, a certificate of the story's name", program.run(["info", "a.z3"], named), facts(beside="version 1, routines 0, instructions 2, marked 0, facts 0"))
    for name, files, other in OBJECT_RUNS:
        answer = program.run([*INFO, "--json"], files)
        wanted = {**ALONE, "sha256": hashlib.sha256(files["story"]).hexdigest(), **other}
        well = answer.status == 0 and answer.errors == b"" and answer.output.count(b"\n") == 1
        count.see(well and json.loads(answer.output) == wanted, f"info as an object, {name}: {answer}; wanted was {wanted}")
    with tempfile.TemporaryDirectory(prefix="zpc-") as room:
        with open(os.path.join(room, "story"), "wb") as file:
            file.write(SAMPLE)
        os.mkdir(os.path.join(room, "story.cert"))
        count.is_answer("info, a folder of the certificate's name", program.run_in(room, INFO), facts(beside="can't be read"))
        answer = program.run_in(room, [*INFO, "--json"])
        told = json.loads(answer.output)
        count.see((answer.status, told["certificate"], told["certificate_readable"]) == (0, "story.cert", False), f"info as an object, a folder of the certificate's name: {answer}")
    odd = 'a "b"\n\u00e9'
    answer = program.run(["info", "--json", odd], {odd: SAMPLE})
    count.see(json.loads(answer.output or b"{}").get("file") == odd, f"info as an object, of an odd name: {answer}")
    count.is_answer("info as an object, of no story", program.run([*INFO, "--json"], {"story": b""}), refused("L1"))
