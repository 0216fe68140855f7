"""Runs of the program with its errors on a terminal: behind a code stands what it means. Each line is worked out by hand."""
import os
import pty
import subprocess
import tempfile

from samples import CODE, HELLO, NOP, QUIT, certificate, story
from saves import RESTORES, saved
from unpacking import HIS, packed

SAMPLE = story(HELLO + QUIT)
# `set_window` isn't played.
WINDOW = story(NOP + b"\xeb\x7f\0" + QUIT)
# `loadb` of a byte behind the end of memory that may be read.
STRAY = story(b"\xd0\x0f\xff\xff\xff\xff\x10" + QUIT)

FILES = {
    "a.z3": SAMPLE, "broken.cert": certificate(SAMPLE, [0x324]), "other.cert": certificate(SAMPLE, [0x324, 0x329], release=2), "short.z3": b"", "window.z3": WINDOW, "text": b"letter",
    "stray.z3": STRAY, "his.qzl": packed(saved(SAMPLE, CODE), SAMPLE),
    "restores.z3": RESTORES, "other.qzl": HIS,
}

# ---- the words, the status, and what is said on the terminal

RUNS = [
    (["check", "a.z3", "broken.cert"], 1, "refused: I4 at 00324: what follows the instruction isn't known well enough"),
    (["check", "a.z3", "other.cert"], 1, "refused: S1: the certificate is of another story"),
    (["check", "a.z3", "text"], 1, "refused: K1: the file is no certificate"),
    (["check", "a.z3", "none.cert"], 4, "failed: file: cannot read 'none.cert': no such file"),
    (["list", "none.z3"], 4, "failed: file: cannot read 'none.z3': no such file"),
    (["list", "."], 4, "failed: file: cannot read '.': it is a folder"),
    (["list", "a.z3/b"], 4, "failed: file: cannot read 'a.z3/b': a part of its path is no folder"),
    (["list", "short.z3"], 1, "refused: L1: the file is too short to be a story"),
    (["list", "window.z3"], 1, "refused: U1 at 00325: play may lead to what is no instruction, or call what is no routine"),
    (["find", "--strict", "window.z3", "w"], 1, "refused: G1 at 00325: no instruction stands there\r\nnot found"),
    (["find", "a.z3", "text"], 1, "refused: N1: the file that a certificate is to be kept in holds something else"),
    (["find", "a.z3", "none/a.cert"], 4, "failed: file: cannot write 'none/a.cert': no such folder"),
    (["unpack", "a.z3", "a.z3", "my.qzl"], 1, "refused: C1: the file is no save"),
    (["unpack", "a.z3", "none.qzl", "my.qzl"], 4, "failed: file: cannot read 'none.qzl': no such file"),
    (["unpack", "a.z3", "his.qzl", "none/my.qzl"], 4, "failed: file: cannot write 'none/my.qzl': no such folder"),
    (["play", "a.z3"], 0, ""),
    (["play", "--save", "other.qzl", "restores.z3"], 0, "save refused: Q5"),
    (["play", "stray.z3"], 3, "fault: F12 at 00324: a load from outside the story"),
    (["play", "--budget", "0", "a.z3"], 0, "end: budget"),
]


def told(program, folder, words):
    """The status, and what came on a terminal for the errors."""
    ours, theirs = pty.openpty()
    done = subprocess.run([program.path, *words], cwd=folder, stdin=subprocess.DEVNULL, stdout=subprocess.PIPE, stderr=theirs, timeout=60)
    os.close(theirs)
    said = b""
    while True:
        try:
            part = os.read(ours, 4096)
        except OSError:
            break
        if not part:
            break
        said += part
    os.close(ours)
    return done.returncode, said.decode()


def see_words(program, count):
    with tempfile.TemporaryDirectory(prefix="zpc-") as folder:
        for name, contents in FILES.items():
            with open(os.path.join(folder, name), "wb") as file:
                file.write(contents)
        for words, status, line in RUNS:
            wanted = (status, f"{line}\r\n" if line else "")
            seen = told(program, folder, words)
            count.see(seen == wanted, f"on a terminal, {words}: {seen}; wanted was {wanted}")
