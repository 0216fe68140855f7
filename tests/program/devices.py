#!/usr/bin/env python3
"""Each call of a device fails in turn, alone, and the calls after it go on: what failed is named, what was written is a beginning,
and nothing is tried again.

    devices.py PROGRAM
"""
import errno
import os
import subprocess
import sys
import tempfile

from excused import DEEP, DEEP_TOLD, LENIENT
from lists import NAMINGS
from program import Answer, Count, Program
from samples import HELLO, QUIT, certificate, changed, printed, story, with_objects
from saves import RESTORES, SAVES, SAVES_LISTED, THAT_SAVE
from unpacking import HIS

HERE = os.path.dirname(os.path.abspath(__file__))


def shim(folder):
    made = os.path.join(folder, "fail.so")
    subprocess.run(["cc", "-O1", "-shared", "-fPIC", "-o", made, os.path.join(HERE, "fail.c")], check=True)
    return made


class Devices:
    """A program whose devices are disturbed."""

    def __init__(self, program, library, folder):
        self.program, self.library, self.calls = program, library, os.path.join(folder, "calls")

    def run(self, words, files, settings, typed=b""):
        """What a run comes to, and the calls that it made: kind, device, and whether it failed."""
        environment = {"LD_PRELOAD": self.library, "CALLS": self.calls, **{name: str(value) for name, value in settings.items()}}
        answer = self.program.run(words, files, environment=environment, typed=typed)
        with open(self.calls, encoding="ascii") as file:
            return answer, [tuple(line.split()) for line in file]


def is_well(answer, calls, ample, error, told):
    """Whether a run in which one call failed, with the calls that it made, answers as it should, behind what it told before that. The standard
    library itself opens a file again where a signal interrupted that."""
    at = next(index for index, call in enumerate(calls) if call[2] == "failed")
    kind, device, _ = calls[at]
    if kind == "open" and error == errno.EINTR:
        return answer == ample
    after = [call for call in calls[at + 1 :] if call[:2] != ("write", "2")]
    if (kind, device) == ("write", "2"):
        return answer.status == ample.status and answer.output == ample.output and not after
    if (kind, device) == ("write", "1"):
        begun = ample.output.startswith(answer.output) and answer.output != ample.output
        return (answer.status, answer.errors) == (4, told + b"failed: write\n") and begun and not after
    if (kind, device) == ("read", "0"):
        return (answer.status, answer.errors) == (4, b"failed: read\n") and ample.output.startswith(answer.output) and not after
    return answer == Answer(4, b"", b"failed: file\n") and not after


def see_each(devices, count, words, files, settings, typed=b"", told=b""):
    """Has each call of a run fail in turn."""
    ample, calls = devices.run(words, files, settings, typed)
    assert calls, "the shim sees no call"
    for number in range(1, len(calls) + 1):
        for error in (errno.EIO, errno.EINTR):
            answer, made = devices.run(words, files, {**settings, "FAIL": number, "ERROR": error}, typed)
            count.see(is_well(answer, made, ample, error, told), f"{' '.join(words)} with call {number} failing by {error}: {answer}, calls {made[number - 1:]}")
    return ample


def see_lines(devices, count):
    """Has each call fail of a play that reads three lines, or two and the end of its input. At most 256 bytes are read at once."""
    made = with_objects((b"\xb2" + HELLO[1:] + b"\xe4\x0f\x02\x80\x02\x90") * 3 + QUIT)
    listed = certificate(made, [place for at in (0x370, 0x37B, 0x386) for place in (at, at + 5)] + [0x391], ranges=[(0x280, 0x280), (0x290, 0x290)])
    for words in (["play", "story"], ["play", "story", "certificate"]):
        for lines, errors in ((3, b""), (2, b"end: no input\n")):
            ample = see_each(devices, count, words, {"story": made, "certificate": listed}, {}, (b"look,at" + b" " * 190 + b"\n") * lines)
            count.is_answer(f"{words} on {lines} lines", ample, Answer(0, b"hello" * 3, errors))


def failing(devices, words, files, settings, typed, wanted):
    """What a run comes to of which the first call of this kind, to this device, fails; and the calls that were made."""
    _, calls = devices.run(words, files, settings, typed)
    number = 1 + next(index for index, call in enumerate(calls) if call[:2] == wanted)
    return devices.run(words, files, {**settings, "FAIL": number, "ERROR": errno.EIO}, typed)


def see_prompt(devices, count):
    """Has each call fail of a play that shows a status line and reads one line. What was shown is out before the line is read."""
    made = with_objects(b"\xe4\x0f\x02\x80\x02\x90" + QUIT)
    files = {"story": made, "certificate": certificate(made, [0x370, 0x376], ranges=[(0x280, 0x280), (0x290, 0x290)])}
    shown = b"[ | Score: 0 | Moves: 0]\n"
    for words in (["play", "--status", "story"], ["play", "--status", "story", "certificate"]):
        for short in ({}, {"SHORT": 300}, {"SHORT": 1}):
            if short != {"SHORT": 1}:
                ample = see_each(devices, count, words, files, short, b"look,at\n")
                count.is_answer(f"{words}, {short}", ample, Answer(0, shown, b""))
            answer, calls = failing(devices, words, files, short, b"look,at\n", ("read", "0"))
            count.is_answer(f"{words}, {short}, no line can be read", answer, Answer(4, shown, b"failed: read\n"))
        # the last byte of what is shown is written, with a flush or without, before the first byte is read
        kinds = [call[:2] for call in calls]
        count.see(("write", "1") not in kinds[kinds.index(("read", "0")) :], f"{words}: the calls were {calls}")


def see_writers(devices, count):
    """A writer that takes two bytes and then fails, one that takes none, and one that takes a byte a call."""
    made = story(HELLO + QUIT)
    files = {"story": made, "certificate": certificate(made, [0x324, 0x329])}
    for words in (["play", "story"], ["play", "story", "certificate"]):
        _, calls = devices.run(words, files, {"SHORT": 2})
        second = [index for index, call in enumerate(calls, 1) if call[:2] == ("write", "1")][1]
        answer, _ = devices.run(words, files, {"SHORT": 2, "FAIL": second, "ERROR": errno.EIO})
        count.is_answer(f"{words}, two bytes and no more", answer, Answer(4, b"he", b"failed: write\n"))
        answer, calls = devices.run(words, files, {"NONE": 1})
        count.is_answer(f"{words}, no byte", answer, Answer(4, b"", b"failed: write\n"))
        count.see([call[:2] for call in calls].count(("write", "1")) == 1, f"{words}, no byte: the calls were {calls}")
        answer, _ = devices.run(words, files, {"SHORT": 1})
        count.is_answer(f"{words}, a byte a call", answer, Answer(0, b"hello", b""))


def see_loose(devices, count):
    """A store that says that it keeps each save, and gives another one of which a default of a property isn't that of the story. By the
    certificate play doesn't go on from that; the machine that tests everything does, again and again."""
    files = {"story": SAVES, "certificate": SAVES_LISTED, "kept": changed(THAT_SAVE, 586, 1)}
    play = ["play", "--budget", "100", "--save", "kept"]
    for words, wanted in ((["story"], Answer(0, b"", b"end: budget\n")), (["story", "certificate"], Answer(0, b"", b""))):
        answer, calls = devices.run([*play, *words], files, {"STAY": 1})
        count.is_answer(f"another save is kept, {words}", answer, wanted)
        count.see([call[0] for call in calls].count("rename") == 1, f"another save is kept, {words}: the calls were {calls}")
        answer, _ = devices.run(["play", "--save", ".", *words], files, {})
        count.is_answer(f"neither saves nor restores, {words}", answer, Answer(0, b"", b""))


def is_through(calls):
    """Whether what was written last to a file was seen to be on the disk, and only then was the file given its name."""
    kinds = [call[0] for call in calls if call[0] in ("write", "fsync", "rename") and call[1] == "3"]
    return kinds[-3:] == ["write", "fsync", "rename"] and kinds.count("rename") == kinds.count("fsync") == 1


def see_saves(devices, count, words):
    """Has each call fail of a story that saves, and then goes on from its save five times. One that has to do with the save is told to the
    story, which quits; but at the last of its restores no step of the budget is left."""
    files = {"story": SAVES, "certificate": SAVES_LISTED}
    _, reading = devices.run(["play", "--budget", "0", *words], files, {})
    before = sum(call[:2] != ("write", "2") for call in reading)
    play = ["play", "--budget", "5", "--save", "kept", *words]
    ample, calls = devices.run(play, files, {})
    count.is_answer(f"{' '.join(play)}", ample, Answer(0, b"", b"end: budget\n"))
    count.see(is_through(calls), f"{' '.join(play)}: the calls were {calls}")
    last = max(index for index, call in enumerate(calls, 1) if call[0] == "open")
    for number, call in enumerate(calls, 1):
        if call[:2] == ("write", "2"):
            continue
        answer, made = devices.run(play, files, {"FAIL": number, "ERROR": errno.EIO})
        told = ample if number >= last else Answer(0, b"", b"")
        wanted = Answer(4, b"", b"failed: file\n") if number <= before else told
        count.is_answer(f"{' '.join(play)} with call {number} failing, {call}, calls {made[number - 1:]}", answer, wanted)


def see_kept(devices, count, words, files, said):
    """Has each call fail of a command whose answer is kept in a file, and that says this."""
    ample, calls = devices.run(words, files, {})
    count.is_answer(" ".join(words), ample, Answer(0, said, b""))
    count.see(is_through(calls), f"{' '.join(words)}: the calls were {calls}")
    for number, call in enumerate(calls, 1):
        answer, made = devices.run(words, files, {"FAIL": number, "ERROR": errno.EIO})
        wanted = b"failed: write\n" if call[:2] == ("write", "1") else b"failed: file\n"
        count.is_answer(f"{' '.join(words)} with call {number} failing, {call}, calls {made[number - 1:]}", answer, Answer(4, b"", wanted))


def main():
    program = Program(sys.argv[1])
    count = Count("devices")
    made = story(HELLO + QUIT)
    files = {"story": made, "certificate": certificate(made, [0x324, 0x329])}
    long = story((printed("a longer text, so that it takes more than one piece".replace(",", "")) + b"\xbb") * 30 + QUIT)
    with tempfile.TemporaryDirectory(prefix="devices-") as folder:
        devices = Devices(program, shim(folder), folder)
        for settings in ({}, {"SHORT": 1000}):
            for words in (["list", "story"], ["list", "story", "certificate"], ["play", "story"], ["play", "story", "certificate"], ["check", "story", "certificate"], ["show", "story", "certificate"], ["show", "story", "certificate", "00324"], ["play", "absent"]):
                see_each(devices, count, words, files, settings)
            for words in (["--help"], ["--version"], ["play"], ["list"], ["explain", "I5"], ["explain", "I19"], ["show", "story", "certificate", "x"], ["check", "story", "story"]):
                see_each(devices, count, words, files, settings)
        for words in (["list", "story", "certificate"], ["play", "story", "certificate"], ["check", "story", "certificate"], ["show", "story", "certificate"]):
            see_each(devices, count, words, NAMINGS[0][1], {"SHORT": 400})
        see_lines(devices, count)
        see_prompt(devices, count)
        see_writers(devices, count)
        see_loose(devices, count)
        see_kept(devices, count, ["find", "story", "kept"], {"story": made}, b"found\n")
        see_kept(devices, count, ["unpack", "story", "his", "kept"], {"story": RESTORES, "his": HIS}, b"")
        see_saves(devices, count, ["story"])
        see_saves(devices, count, ["story", "certificate"])
        # a byte a call: the text is whole, and each beginning of it is met
        ample = see_each(devices, count, ["check", "story", "certificate"], files, {"SHORT": 400})
        count.is_answer("reading by 400 bytes", ample, Answer(0, b"accepted\n", b""))
        answer, _ = devices.run(["play", "story", "certificate"], files, {"SHORT": 1})
        count.is_answer("a byte a call", answer, Answer(0, b"hello", b""))
        ample = see_each(devices, count, LENIENT, {"story": DEEP}, {}, told=DEEP_TOLD)
        count.is_answer("lenient play", ample, Answer(0, b"0", DEEP_TOLD))
        ample = see_each(devices, count, ["play", "story"], {"story": long}, {"SHORT": 300})
        count.see(len(ample.output) == 30 * 51, f"a longer story printed {len(ample.output)} bytes")
    count.end()


if __name__ == "__main__":
    main()
