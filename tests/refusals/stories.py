#!/usr/bin/env python3
"""Writes the stories that the program of single calls is run on, each with its certificate to a folder of its own, and with lines that
it prints of it, in their order, worked out by hand.

    stories.py FOLDER
"""
import os
import sys

sys.path.insert(0, os.path.join(os.path.dirname(os.path.abspath(__file__)), "..", "program"))

from saves import SAVES, SAVES_LISTED, THAT_SAVE, saved
from samples import HELLO, QUIT, certificate, changed, interval, story, with_objects

ANY, DRAWN = interval(-32768, 32767), interval(1, 6)
# It prints and quits.
PLAIN = story(HELLO + QUIT)
PLAIN_LISTED = certificate(PLAIN, [0x324, 0x329])

# It draws a number up to 6 and prints it. The first word is 5.
DRAWS = story(b"\xe7\x7f\x06\x00" + b"\xe6\xbf\x00" + QUIT)
DRAWS_LISTED = certificate(DRAWS, [0x324, 0x328, 0x32B], stacks={0x328: DRAWN})

# It prints, and calls a routine that calls itself for ever.
DEEP = story(HELLO + b"\xe0\x3f\x01\x98\x00" + QUIT + b"\0" * 2 + b"\xe0\x3f\x01\x98\x00" + b"\xb8")
DEEP_LISTED = certificate(
    DEEP, [0x324, 0x329, 0x32E, 0x331, 0x336], stacks={0x32E: ANY, 0x336: ANY}, routines=[(0x330, 0)], inside=dict.fromkeys([0x331, 0x336], (1, b""))
)

# It reads a line. The other prints and reads a line, three times over.
READ = b"\xe4\x0f\x02\x80\x02\x90"
FROZEN = [(0x280, 0x280), (0x290, 0x290)]
READS = with_objects(READ + QUIT)
READS_LISTED = certificate(READS, [0x370, 0x376], ranges=FROZEN)
READS_ON = with_objects((HELLO + READ) * 3 + QUIT)
READS_ON_LISTED = certificate(READS_ON, [place for at in (0x370, 0x37B, 0x386) for place in (at, at + 5)] + [0x391], ranges=FROZEN)
SHOWN = "[ | Score: 0 | Moves: 0]"


def typed(made):
    """Memory behind the line `look,at`: the text, and two words: the one at 368, of 4 letters from 1 on, and an unknown one of 1 from 5 on."""
    return changed(changed(made, 0x281, *b"look,at\0"), 0x291, 2, 3, 0x68, 4, 1, 0, 0, 1, 5)


def tells(name, contents):
    return f"{name} {len(contents)} bytes, sum {sum(contents) % 65536}"


def fed(listed):
    """A certificate that is read from its pieces, and one by which its story is accepted."""
    return [tells("fed", listed), tells("fed and checked", listed)]


def stood(place, memory, text):
    return f"at {place}, memory {sum(memory) % 65536}, gave {text}"


def stands(what, place, memory, text):
    return f"{what} {stood(place, memory, text)}"


def plays(place, memory, text, end):
    """The lines of a play that ends there."""
    return [stands("play", place, memory, text), f"play ends: {end}"]


def between():
    """Where plays stand that single steps don't come to, since they end where something is awaited: behind the word that is drawn, and
    behind each line that is read and what is printed before the next."""
    yield "draws", [stood(0x328, DRAWS, "")]
    yield "reads_on", [stood(place, typed(READS_ON), text) for place, text in ((0x37B, "hello"), (0x386, "hello" * 2), (0x38B, "hello" * 3))]


def stories():
    """For each folder a story, its certificate, the lines that are printed before it is played, and those of each of three machines: a
    session, and the checked machine anywhere and on the listing."""
    plain = plays(0x329, PLAIN, "hello", "Quit")
    yield (
        "plain", PLAIN, PLAIN_LISTED,
        ["decoded hellohello", "listed 2", tells("found", certificate(PLAIN, [0x324, 0x329], ranges=[(0x220, 0x25D)])), tells("accepted", PLAIN_LISTED), *fed(PLAIN_LISTED), tells("parts", saved(PLAIN, 0x324))],
        [
            stands("opening", 0x324, PLAIN, ""), stands("step", 0x329, PLAIN, "hello"), "step ends: Quit", "run, with 49 left", "rendered hello",
            stands("run", 0x329, PLAIN, "hello"), "run ends: Quit", *plain * 3, "writing failed", *plain * 2,
        ],
    )
    drawn = plays(0x32B, DRAWS, "6", "Quit")
    yield "draws", DRAWS, DRAWS_LISTED, ["listed 3"], ["step ends: NoInput", stands("run", 0x324, DRAWS, ""), "run ends: NoInput", *drawn * 3]
    deep = plays(0x331, DEEP, "hello", "FrameLimit")
    yield "deep", DEEP, DEEP_LISTED, ["listed 5"], ["run, with 0 left", "rendered hello", "run ends: Budget", *deep, "writing failed", *deep * 2]
    read = plays(0x376, typed(READS), "", "Quit")
    yield (
        "reads", READS, READS_LISTED, ["listed 2"],
        ["step ends: NoInput", "rendered " + SHOWN, *read * 3, "writing failed", *read, "writing failed", *read],
    )
    read_on = plays(0x391, typed(READS_ON), "hello" * 3, "Quit")
    # the first call that reads a line reads all three, and the two that it doesn't use are lost
    ahead = plays(0x380, typed(READS_ON), "hello" * 2, "NoInput")
    yield (
        "reads_on", READS_ON, READS_ON_LISTED, ["listed 7"],
        ["rendered hello" + SHOWN, "run ends: NoInput", *read_on * 2, *ahead, *["writing failed", *read_on] * 2],
    )
    kept = plays(0x328, SAVES, "", "Quit")
    yield (
        "saves", SAVES, SAVES_LISTED, ["listed 3", tells("accepted", SAVES_LISTED), *fed(SAVES_LISTED), tells("parts", THAT_SAVE)],
        ["run ends: NoInput", *kept * 3, tells("saved", THAT_SAVE), stands("awaits", 0x326, SAVES, ""), stands("restored", 0x324, SAVES, "")],
    )


def main():
    for name, made, listed, before, each in stories():
        folder = os.path.join(sys.argv[1], name)
        os.makedirs(folder)
        lines = [*before, *each, "checked machine, anywhere", *each, "checked machine, on the listing", *each]
        for file_name, contents in (("story.z3", made), ("story.cert", listed), ("lines", "".join(f"{it}\n" for it in lines).encode())):
            with open(os.path.join(folder, file_name), "wb") as file:
                file.write(contents)
    for name, lines in between():
        with open(os.path.join(sys.argv[1], name, "places"), "w", encoding="ascii") as file:
            file.writelines(f"{it}\n" for it in lines)


if __name__ == "__main__":
    main()
