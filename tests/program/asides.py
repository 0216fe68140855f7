"""Runs of `play` of a story with no certificate named, beside which one stands or not. Each line is worked out by hand."""
import os

from frames import ENDLESS, MOST, USUAL
from many import ENOUGH, FILES, ITS_CERTIFICATE, SAMPLE, room
from program import Answer
from samples import certificate

# ---- the story, its name, what is told of the certificate

PLAYS = [
    ("none beside it", "alone.z3", ""),
    ("one that is accepted", "good.z3", ""),
    ("one beside .Z3", "other.Z3", ""),
    ("one that isn't accepted", "broken.z3", f"broken.cert: refused: I4 at 00324: {ENOUGH}\n"),
    ("one that is none", "taken.z3", "taken.cert: refused: K1: the file is no certificate\n"),
    ("one of another story", "foreign.z3", "foreign.cert: refused: S1: the certificate is of another story\n"),
]


def see_asides(program, count):
    files = {**FILES, "foreign.z3": SAMPLE, "foreign.cert": certificate(SAMPLE, [0x324, 0x329], release=2)}
    for name, story, told in PLAYS:
        count.is_answer(f"play with {name}", program.run(["play", story], files), Answer(0, b"hello", told.encode()))
    count.is_answer("play of what is no story, with a certificate", program.run(["play", "cut.z3"], files), Answer(1, b"", b"refused: L4\n"))
    count.is_answer("play of what isn't there, with a certificate", program.run(["play", "c.z3"], {"c.cert": ITS_CERTIFICATE}), Answer(4, b"", b"failed: file\n"))
    # The certificate that is named counts, and not the one beside the story.
    count.is_answer("play by another certificate", program.run(["play", "broken.z3", "good.cert"], files), Answer(0, b"hello", b""))
    with room({"a.z3": SAMPLE}) as folder:
        os.mkdir(os.path.join(folder, "a.cert"))
        told = b"a.cert: failed: file: cannot read 'a.cert': it is a folder\n"
        count.is_answer("play with a folder for a certificate", program.run_in(folder, ["play", "a.z3"]), Answer(0, b"hello", told))
    # By its limit of frames it is seen that it is used, and that it isn't.
    endless = {"e.z3": ENDLESS["story"], "e.cert": ENDLESS["certificate"]}
    for limit, given in [(USUAL, endless), (MOST, {"e.z3": ENDLESS["story"]})]:
        for budget, end in [(limit + 1, "frame limit"), (limit, "budget")]:
            wanted = Answer(0, b"hello", f"end: {end}\n".encode())
            count.is_answer(f"play of {len(given)} files in {budget} steps", program.run(["play", "--budget", str(budget), "e.z3"], given), wanted)
