"""Runs with `--debug`: the source's line behind an address, and names before numbers. Each line is worked out by hand, of a file of debug information
that is written here, and of the one that Inform 6 wrote of tests/debug/tide.inf."""
import json
import os
import sys

from program import Answer
from samples import CODE, HELLO, QUIT, certificate, interval, story

HERE = os.path.dirname(os.path.abspath(__file__))
DEBUG = os.path.join(HERE, "..", "debug")
sys.path.insert(0, DEBUG)

from places import PLACES, VARIABLES  # noqa: E402

# It prints hello, and then what 100 divided by global 16 is, which is 0.
DIVISION = 0x329
MADE = story(HELLO + bytes.fromhex("37641000 E6BF00") + QUIT)
LISTED = [CODE, DIVISION, 0x32D, 0x330]

# Names have a quotation mark, a backslash and a letter that isn't ASCII, which are told as they may be.
POINTS = [(CODE, 0, 12), (DIVISION, 0, 13), (0x330, 1, 7)]
POINT = "<sequence-point><address>{}</address><source-code-location><file-index>{}</file-index><line>{}</line></source-code-location></sequence-point>"


def debug_information(points, routine):
    """What Inform writes of a routine of a name at CODE, with these points: each an address, the number of a source, and a line."""
    told = "".join(POINT.format(*it) for it in points)
    return (
        '<?xml version="1.0"?><inform-story-file version="1.0" content-creator="Inform">'
        '<source index="0"><given-path>bell.inf</given-path></source><source index="1"><given-path>a"b\\c\u00e4.h</given-path></source>'
        f"<routine><identifier>{routine}</identifier><address>{CODE}</address><byte-count>200000</byte-count>{told}</routine>"
        "<global-variable><identifier>noun</identifier><address>64</address></global-variable>"
        "<story-file-section><type>global variables</type><address>64</address><end-address>544</end-address></story-file-section>"
        "</inform-story-file>"
    ).encode()


WRITTEN = debug_information(POINTS, "Ring")
PLAIN = {"story": MADE, "certificate": certificate(MADE, LISTED, stacks={0x32D: interval(-32768, 32767)}), "debug": WRITTEN}
DIVIDES = {**PLAIN, "certificate": certificate(MADE, LISTED, stacks={0x32D: interval(-32768, 32767)}, own={16: (0, 5)})}
BY_DEBUG = ["--debug", "debug"]

LISTING = b"""00324 0 print (bell.inf:12, Ring)
00329 0 div (bell.inf:13, Ring)
0032d 0 print_num (bell.inf:13, Ring)
00330 0 quit (a"b\\x5cc\\xc3\\xa4.h:7, Ring)
"""

# Files that are no debug information, and the number of their code.
SPOILED = [
    ("an empty file", b"", 2),
    ("a text", b"bell", 2),
    ("a text in front", b"bell" + WRITTEN, 2),
    ("another version", WRITTEN.replace(b'version="1.0" c', b'version="1.2" c'), 3),
    ("a comment", WRITTEN.replace(b"<source index", b"<!-- a --><source index", 1), 4),
    ("ends in another order", WRITTEN.replace(b"</given-path></source>", b"</source></given-path>", 1), 5),
    ("an end cut off", WRITTEN[:-5], 4),
    ("no end", WRITTEN.removesuffix(b"</inform-story-file>"), 6),
    ("a line that is none", WRITTEN.replace(b"<line>12<", b"<line>x<"), 7),
    ("an entity that there isn't", WRITTEN.replace(b"bell.inf", b"bell&nbsp;inf"), 8),
    ("a routine with no name", WRITTEN.replace(b"<identifier>Ring</identifier>", b""), 9),
]


def tide(name):
    with open(os.path.join(DEBUG, name), "rb") as file:
        return file.read()


def place_at(address):
    """The place of an address of the tide, if one is known."""
    told = [place for first, place in PLACES if first <= address][-1]
    return told[4:] if told and told.startswith("{}: ") else None


def see_written(program, count):
    """Each command that tells an address."""
    fault = Answer(3, b"hello", b"fault: F10 at 00329 (bell.inf:13, Ring)\n")
    refused = Answer(1, b"", b"refused: I8 at 00329 (bell.inf:13, Ring)\n")
    shown = b"00329 0 div 100, noun (global 16) (bell.inf:13, Ring)\nheight 0\nbroken: I8: a divisor may be 0.\n"
    count.is_answer("sourced: list", program.run(["list", *BY_DEBUG, "story"], PLAIN), Answer(0, LISTING, b""))
    count.is_answer("sourced: check", program.run(["check", *BY_DEBUG, "story", "certificate"], DIVIDES), refused)
    count.is_answer("sourced: play", program.run(["play", *BY_DEBUG, "story"], PLAIN), fault)
    count.is_answer("sourced: lenient play", program.run(["play", "--lenient", *BY_DEBUG, "story"], PLAIN), Answer(0, b"hello0", b"warning: F10 at 00329 (bell.inf:13, Ring): a division by 0\nfaults answered: 1\n"))
    answer = program.run(["show", *BY_DEBUG, "story", "certificate", "329"], DIVIDES)
    count.see(answer.status == 0 and answer.output.endswith(shown), f"sourced: show: {answer}")
    count.see(b"\nnoun (global 16): 0 to 5\nglobal 17: 0\n" in answer.output, f"sourced: the name of a global: {answer}")
    plain = program.run(["find", "story", "out", "--places"], PLAIN)
    told = program.run(["find", *BY_DEBUG, "story", "out", "--places"], PLAIN)
    count.is_answer("sourced: find", told, Answer(0, b"found, marked: 1\n00329 0 div 100, noun (global 16) (bell.inf:13, Ring)\nmarked: I8: a divisor may be 0.\n", b""))
    count.is_answer("sourced: find with no file", plain, Answer(0, b"found, marked: 1\n00329 0 div 100, global 16\nmarked: I8: a divisor may be 0.\n", b""))
    strict = program.run(["find", "--strict", *BY_DEBUG, "story", "out"], PLAIN)
    count.is_answer("sourced: a strict search", strict, Answer(1, b"", b"refused: G1 at 00329 (bell.inf:13, Ring)\nno certificate: I8 at 00329 (bell.inf:13, Ring)\n"))


def see_objects(program, count):
    """A place in an object of JSON, in parts."""
    answer = program.run(["list", "--json", *BY_DEBUG, "story"], PLAIN)
    sources = [json.loads(line).get("source") for line in answer.output.splitlines()]
    ring = {"file": "bell.inf", "line": 13, "routine": "Ring"}
    count.see(sources == [{**ring, "line": 12}, ring, ring, {"file": 'a"b\\x5cc\\xc3\\xa4.h', "line": 7, "routine": "Ring"}], f"sourced: objects: {answer}")
    answer = program.run(["check", "--json", *BY_DEBUG, "story", "certificate"], DIVIDES)
    count.see(json.loads(answer.output).get("source") == ring, f"sourced: an object of check: {answer}")


def see_tide(program, count):
    """What Inform wrote, for all that is listed of its story, and for the variables."""
    given = {"story": tide("tide.z3"), "debug": tide("tide.dbg")}
    plain = program.run(["list", "story"], given).output.decode().splitlines()
    told = program.run(["list", *BY_DEBUG, "story"], given).output.decode().splitlines()
    places = [place_at(int(line[:5], 16)) for line in plain]
    count.see(len(plain) == 18 and told == [f"{line} ({place})" if place else line for line, place in zip(plain, places)], f"sourced: the tide: {told}")
    _, made = program.found(given["story"])
    shown = program.run(["show", *BY_DEBUG, "story", "certificate"], {**given, "certificate": made}).output.decode()
    for number, name in VARIABLES.items():
        count.see(f"\n{name} (global {number}): " in shown, f"sourced: global {number} of the tide")


def see_refused(program, count):
    """Files that aren't read are told before anything else is done."""
    for name, file, number in SPOILED:
        answer = program.run(["list", *BY_DEBUG, "story"], {**PLAIN, "debug": file})
        count.is_answer(f"sourced: {name}", answer, Answer(1, b"", b"refused: B%d\n" % number))
    longest = WRITTEN + b" " * (16 * 2**20 - len(WRITTEN))
    count.is_answer("sourced: the longest file", program.run(["list", *BY_DEBUG, "story"], {**PLAIN, "debug": longest}), Answer(0, LISTING, b""))
    count.is_answer("sourced: one byte more", program.run(["list", *BY_DEBUG, "story"], {**PLAIN, "debug": longest + b" "}), Answer(1, b"", b"refused: B1\n"))
    count.is_answer("sourced: no file", program.run(["list", "--debug", "absent", "story"], PLAIN), Answer(4, b"", b"failed: file\n"))
    count.is_answer("sourced: no file, and no story", program.run(["play", "--debug", "absent", "nowhere"], PLAIN), Answer(4, b"", b"failed: file\n"))
    count.is_answer("sourced: a bad file, and a bad story", program.run(["check", "--debug", "story", "debug"], PLAIN), Answer(1, b"", b"refused: B2\n"))


def see_unwritten(program, count):
    """A device that takes nothing."""
    for words in (["list", *BY_DEBUG, "story"], ["show", *BY_DEBUG, "story", "certificate"]):
        with open("/dev/full", "wb") as full:
            count.is_answer(f"sourced: {words[0]} to a full device", program.run(words, PLAIN, full), Answer(4, b"", b"failed: write\n"))


def see_sources(program, count):
    see_written(program, count)
    see_objects(program, count)
    see_tide(program, count)
    see_refused(program, count)
    see_unwritten(program, count)


def see_manual(program, count, manual):
    count.is_answer("the manual page", program.run(["help", "man"]), Answer(0, manual, b""))
