"""Command lines that are drawn, each from a seed of its own: the words, the files, what is typed. Most are made so that they get far.

What docs/MACHINE.md and docs/CERTIFICATE.md don't say isn't drawn: with a certificate without marks, saves that may be refused by Q10, since
what a certificate describes stands elsewhere; and a file that is N2 beside a story or certificate that is refused too."""
import glob
import os
import random

import certificates
import marking
import saves
import spoiling
import worlds
from machine import Machine, Store
from stories import Refused, Story
from walking import Walk

ROOT = os.path.join(os.path.dirname(os.path.abspath(__file__)), "../..")
FOLDERS = ["crates/zpc/data", "tests/authors", "benches/stories"]
LINES = [b"look", b"go north", b"take lamp, at", b"", b"  ", b"save", b"restore", b"quit", b"LOOK \xe9 at\r", b"n", b"x" * 300, b"\"at.\"", b"e", b"1"]
TALK = [*[b"/undo"] * 12, b"/help", b"/", b"/Undo", b"/undo ", b"/save x", b"/quit"]
POOL = 40  # stories with a certificate that is found, for each seed


class Case:
    """A command line: its words, the files beside it, what is typed, and the file that it may write."""

    def __init__(self, words, files, typed=b""):
        self.words, self.files, self.typed = words, files, typed
        self.writes = "found" if words[0] == "find" else "saved"


def repository():
    """The stories of the repository."""
    found = [it for folder in FOLDERS for it in sorted(glob.glob(os.path.join(ROOT, folder, "*.z3")))]
    return [read(it) for it in found]


def read(path):
    with open(path, "rb") as file:
        return file.read()


def typed(draw):
    lines = [draw.choice(LINES) if draw.random() < 0.8 else any_line(draw) for _ in range(draw.randint(0, 12))]
    return b"\n".join(lines) + draw.choice([b"", b"\n", b"\r\n"])


def any_line(draw):
    """A line of words and marks, or of any bytes."""
    if draw.random() < 0.3:
        return bytes(draw.randint(0, 255) for _ in range(draw.randint(1, 20))).replace(b"\n", b"")
    return b"".join(draw.choice([*worlds.WORDS_KNOWN, b" ", b" ", b",", b".", b"?", b"A", b"7", b"o"]) for _ in range(draw.randint(1, 9)))


def options(draw):
    found = ["--budget", str(draw.choice([0, 1, 7, 40, 200, 200, 600, 2000]))]
    if draw.random() < 0.6:
        found.append("--status")
    if draw.random() < 0.1:
        found.append("--framed-status")
    if draw.random() < 0.4:
        found += ["--seed", str(draw.choice([0, 1, 2, draw.randrange(2**32), 2**64 - 1]))]
    if draw.random() < 0.25:
        found += ["--width", str(draw.choice([1, 2, 3, 5, 8, 20, 80, 1000]))]
    if draw.random() < 0.05:
        found.append(draw.choice(["--plain", "--no-save"]))
    return found


def lenience(draw, rate):
    return ["--lenient"] if draw.random() < rate else []


class Drawer:
    """Draws the cases of a seed, by their numbers."""

    def __init__(self, seed, program):
        self.seed, self.program, self.stories, self.pool = seed, program, repository(), {}
        self.talking = [it for it in self.stories if asks(it)]
        self.forces = b"--force" in program.run(["play", "--help"]).output

    def case(self, number):
        draw = random.Random(f"{self.seed}-{number}")
        way = draw.random()
        if way < 0.04:
            return self.with_commands(draw)
        if way < 0.4:
            return self.with_certificate(draw) if way < 0.2 else self.walked(draw)
        if way < 0.55:
            return self.with_saves(draw)
        crossing = draw.choice([0, 0, 0, 1 / 50, 1 / 10])
        story = worlds.story(draw, crossing / 5, crossing=crossing) if crossing else self.story(draw)
        if way < 0.65:
            return Case(["list", "story"], {"story": story if draw.random() < 0.4 or len(story) < 64 else unlisted(draw, story)})
        if way < 0.68:
            asked = ["--frames", str(draw.choice([0, 1, 7, 1024, 4096]))] if draw.random() < 0.3 else []
            asked += [it for it, rate in (("--strict", 0.2), ("--places", 0.4)) if draw.random() < rate]
            return Case(["find", *asked, "story", "found"], {"story": story})
        asked = lenience(draw, 0.5)
        if asked and draw.random() < 0.4:
            story = worlds.story(draw, draw.choice([1 / 100, 1 / 20, 1 / 5]), windows=draw.choice([0, 1 / 20, 1 / 5]))
        return Case(["play", *options(draw), *asked, "story"], {"story": story}, typed(draw))

    def story(self, draw):
        kind = draw.random()
        if kind < 0.65:
            made = worlds.story(draw)
            way = draw.random()
            if way < 0.75:
                return made
            if way < 0.8:
                return spoiling.raw_of(draw, made)
            return spoiling.tables_of(draw, made) if way < 0.9 else spoiling.bytes_of(draw, made, self.stories)
        made = draw.choice(self.stories)
        if draw.random() < 0.5:
            return spoiling.code_of(draw, made)
        return made if draw.random() < 0.1 else spoiling.bytes_of(draw, made, self.stories)

    # ---- the player's own commands

    def with_commands(self, draw):
        """A play in which the player talks to the program between lines for the story."""
        story, certificate = self.certified(draw.choice(self.talking)) if draw.random() < 0.8 else self.sound(draw)
        lines = b"".join(draw.choice(TALK if draw.random() < 0.4 else LINES) + b"\n" for _ in range(draw.randint(1, 20)))
        files, words = {"story": story}, [*lenience(draw, 0.1), "story"]
        if draw.random() < 0.5:
            files["certificate"], words = marked(draw, story, certificate) if draw.random() < 0.5 else certificate, [*words, "certificate"]
        keeps = ["--tell", "--save", "saved"] if draw.random() < 0.5 else []
        asked = options(draw)
        asked[1] = str(draw.choice([40, 2000, 20000, 20000]))
        return Case(["play", *asked, "--commands", *keeps, *words], files, lines)

    # ---- saves

    def with_saves(self, draw):
        """A play of the checked machine that keeps saves, mostly with one that was kept before, whole or spoiled."""
        story = worlds.story(draw, restores=draw.random() < 0.8)
        files, lines = {"story": story}, typed(draw)
        save = kept(story, lines)
        if draw.random() < 0.8 and save:
            files["saved"] = save if draw.random() < 0.3 else spoiling.save_of(draw, save)
        elif draw.random() < 0.1:
            files["saved"] = draw.choice([b"", b"F", b"FORM"])
        tell = ["--tell"] if draw.random() < 0.8 else []
        if self.forces and draw.random() < 0.15:
            files["saved"] = draw.choice([b"F", b"FORMS", b"f", b"ZPCC", b"FOR\0", b"\0", save or b"FORM", b"FO", bytes(20)])
            tell += ["--force"] if draw.random() < 0.5 else []
        return Case(["play", *options(draw), *lenience(draw, 0.3), *tell, "--save", "saved", "story"], files, lines)

    # ---- certificates

    def sound(self, draw):
        """A story for which a certificate is found, and that."""
        number = draw.randrange(POOL + len(self.stories))
        if number not in self.pool:
            self.pool[number] = self.found(number)
        return self.pool[number] or self.sound(draw)

    def found(self, number):
        if number >= POOL:
            return self.certified(self.stories[number - POOL])
        for attempt in range(8):
            made = self.certified(worlds.story(random.Random(f"{self.seed}-pool-{number}-{attempt}"), 0, number % 3 == 0))
            if made:
                return made
        return None

    def certified(self, story):
        """The story with the certificate that is found, if one is."""
        certificate = self.program.found(story)[1]
        return (story, certificate) if certificate else None

    def with_certificate(self, draw):
        story, certificate = self.sound(draw)
        way = draw.random()
        if way < 0.1:
            certificate = spoiling.bytes_of(draw, certificate, [certificate])
        elif way < 0.5:
            certificate = spoiling.certificate_of(draw, certificate)
        elif way < 0.55:
            story = spoiling.bytes_of(draw, story, self.stories)
        elif way < 0.65:
            story = spoiling.tables_of(draw, story)
        elif way < 0.85:
            story = spoiling.code_of(draw, story, certificates.read(certificate))
        return accepting(draw, story, certificate)

    def walked(self, draw):
        """A story with the certificate of a walk, mostly as it is."""
        story = worlds.story(draw) if draw.random() < 0.7 else spoiling.code_of(draw, draw.choice(self.stories))
        if draw.random() < 0.1:
            story = spoiling.tables_of(draw, story)
        try:
            loaded = Story(story)
            made = Walk(loaded, draw.choice([1, 2, 3, 4]), frozen(draw, loaded)).made
            made.limit = draw.choice([0, 1, 2, 3, 4, 1024, 4096]) if made.names_limit else made.limit
            certificate = spoiling.spelled(made)
        except Refused:
            return Case(["list", "story"], {"story": story})
        return accepting(draw, story, certificate if draw.random() < 0.5 else spoiling.certificate_of(draw, certificate))


def asks(story):
    """Whether a story that is played with two lines asks for one more within so many steps."""
    try:
        machine = Machine(Story(story), 1, b"look\nlook\n")
    except Refused:
        return False
    machine.run(400)
    return len(machine.asked) > 2


def unlisted(draw, story):
    """A copy of a story that is spoiled where loading or listing may tell it."""
    way = draw.random()
    if way < 0.03:
        return story[: draw.choice([0, 1, 63, 64, 65])]
    if way < 0.06:
        return story.ljust(draw.choice([131072, 131073]), b"\0")
    if way < 0.5:
        return spoiling.raw_of(draw, story)
    if way < 0.7:
        return spoiling.dictionary_of(draw, story)
    return spoiling.header_of(draw, story)


def frozen(draw, story):
    """Places of dynamic memory that a certificate may freeze: mostly none, or some runs behind the entries of objects."""
    begin = story.entry(story.count + 1)
    if draw.random() < 0.5 or begin >= story.static:
        return set()
    firsts = (draw.randrange(begin, story.static) for _ in range(draw.randint(1, 4)))
    places = {place for first in firsts for place in range(first, min(first + draw.choice([1, 2, 9, 70]), story.static))}
    return places - set(range(story.globals, story.globals + 480)) if draw.random() < 0.9 else places


def accepting(draw, story, certificate):
    """A command that asks whether a story is accepted with a certificate, of which some are marked."""
    certificate = marked(draw, story, certificate) if draw.random() < 0.4 else certificate
    files, command = {"story": story, "certificate": certificate}, draw.choice(["check", "check", "play", "play", "play", "list"])
    if command != "play":
        return Case([command, "story", "certificate"], files)
    lines, keeps = typed(draw), []
    if draw.random() < 0.5:
        keeps = ["--tell", "--save", "saved"]
        if draw.random() < 0.7:
            files.update(save_for(draw, story, certificate, lines))
    return Case(["play", *options(draw), *lenience(draw, 0.2), *keeps, "story", "certificate"], files, lines)


def marked(draw, story, certificate):
    """The certificate with marks: wherever a rule is broken, and there with one more or one less, or at some places or all, or at none."""
    try:
        made, loaded = certificates.read(certificate), Story(story)
    except Refused:
        return certificate
    made.version = max(made.version, 4)
    if draw.random() < 0.6:
        marking.mark_broken(loaded, made)
        if draw.random() < 0.4:
            spoiling.one_mark(draw, made)
    else:
        spoiling.many_marks(draw, made)
    return spoiling.spelled(made)


def save_for(draw, story, certificate, lines):
    """A file of saves for a play with a certificate: one that was kept by a play of the story, or a spoiled one. Where nothing is marked that
    is one which is refused before it is asked what the certificate describes."""
    try:
        save, made = kept(story, lines), certificates.read(certificate)
    except Refused:
        return {}
    if save is None or draw.random() < 0.4:
        return {} if save is None else {"saved": save}
    spoiled, loaded = spoiling.save_of(draw, save), Story(story)
    return {"saved": spoiled} if made.marks or saves.judged(loaded, spoiled, loaded.memory, made)[0] else {}


def kept(story, lines):
    """The save that a play of a story keeps last, or None."""
    store = Store(None)
    machine = Machine(Story(story), 1, lines, False, store)
    machine.run(100)
    return store.contents
