"""Saves that go from the program to its peers, and from them to the program: the play goes on as if it had gone on by itself.

Each peer writes compressed memory, which zpc refuses (Q5). So its save is given to zpc twice: as it is, and rewritten by `zpc unpack`, which has to
come to what is worked out here (Q 3).
"""
import os
import random
import shutil
import subprocess
import tempfile

import peers
import stories
from program import side_by_side
from saves import chunks_of
from unpacking import plain_of

WALKTHROUGH = stories.ASKING[stories.BELL][2][0]

GONE_ON = b">Saved, or gone on from there.\n"


class Parting:
    """A game in two parts: lines up to a save, and lines behind it."""

    def __init__(self, number, seed):
        draw = random.Random(f"{seed} saves {number}")
        self.number, self.story = number, stories.read(stories.BELL)
        letters, words, _ = stories.ASKING[stories.BELL]
        at, drawn = draw.randrange(len(WALKTHROUGH)), stories.drawn_lines(draw, stories.Dictionary(self.story), letters, words)
        self.before = [*WALKTHROUGH[:at], *(drawn[:10] if number % 2 else [])]
        self.behind = [*WALKTHROUGH[at:], *drawn[10:]]


def runs(program, present, count, seed):
    """The peer, the name and the difference, if there is one, of each run."""
    partings = [Parting(number, seed) for number in range(1, count + 1)]
    for some in side_by_side(lambda it: list(both_ways(program, present, it)), partings):
        yield from some


def both_ways(program, present, parting):
    with tempfile.TemporaryDirectory(prefix="peers-") as room:
        with open(os.path.join(room, "story"), "wb") as file:
            file.write(parting.story)
        program.run_in(room, ["play", "--save", "kept", "story"], typed=peers.joined([*parting.before, b"save"]))
        goes_on = [gone_on(program, room, "kept", parting, *more) for more in ([], ["--status"])]
        if GONE_ON not in goes_on[0].output:
            yield "zpc", f"saves: zpc's, {parting.number}", repr(goes_on[0])
        checker = shutil.which("ckifzs", path=peers.PLACES)
        if checker:
            said = subprocess.run([checker, "kept"], cwd=room, capture_output=True, timeout=60).stdout
            yield "ckifzs", f"saves: zpc's, {parting.number}", None if said.rstrip().endswith(b"Save file is valid.") else repr(said)
        for peer in present:
            lines = [b"restore", b"kept", *parting.behind]
            ours, (theirs, _) = peer.ours(*(it.output for it in goes_on), lines), peer.plays(room, lines, 60)
            yield peer.name, f"saves: zpc's, {parting.number}", peers.difference(ours, theirs)
            yield from from_peer(program, peer, room, parting, goes_on[0])


def gone_on(program, room, kept, parting, *more):
    return program.run_in(room, ["play", "--tell", *more, "--save", kept, "story"], typed=peers.joined([b"restore", *parting.behind]))


def from_peer(program, peer, room, parting, wanted):
    """zpc goes on from a save of the peer, or says that its memory is compressed, and goes on once it is unpacked."""
    name = f"{peer.name}.qzl"
    peer.plays(room, [*parting.before, b"save", name.encode()], 60)
    path = os.path.join(room, name)
    if not os.path.exists(path):
        yield peer.name, f"saves: its own, {parting.number}", "it kept none"
        return
    with open(path, "rb") as file:
        kept = file.read()
    goes_on = lambda: told(wanted, gone_on(program, room, name, parting))
    if b"CMem" not in dict(chunks_of(kept) or ()):
        yield peer.name, f"saves: its own, {parting.number}", goes_on()
        return
    answer = gone_on(program, room, name, parting)
    yield peer.name, f"saves: its own, refused, {parting.number}", None if answer.errors.startswith(b"save refused: Q5\n") else repr(answer)
    rewritten = program.run_in(room, ["unpack", "story", name, name])
    with open(path, "rb") as file:
        same = file.read() == plain_of(kept, parting.story)
    yield peer.name, f"saves: its own, rewritten, {parting.number}", None if same and rewritten.status == 0 else repr(rewritten)
    yield peer.name, f"saves: its own, unpacked, {parting.number}", goes_on()


def told(wanted, answer):
    """How an answer differs from the one that is wanted, if it does."""
    return None if answer == wanted else peers.difference(wanted.output, answer.output) or repr(answer)
