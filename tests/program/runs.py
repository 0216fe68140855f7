#!/usr/bin/env python3
"""Stored runs of the built program: the words, the files, and the status, output and errors that the documents ask for.

    runs.py PROGRAM

The texts of clap that are shown for help and for wrong words are stored in help/.
"""
import os
import subprocess
import sys
import tempfile
import threading

from arrays import see_arrays
from asides import see_asides
from calls import see_calls
from dear import see_dear
from excused import see_excused
from facts import see_facts
from finding import see_finding
from frames import see_frames
from fronts import see_fronts
from game import see_game
from lines import see_lines
from lists import see_lists
from many import see_many
from marks import see_marks
from objects import see_objects
from plays import see_plays
from program import Answer, Count, Program
from prompts import see_prompts
from properties import see_properties
from samples import CODE, HELLO, NEW_LINE, NOP, QUIT, certificate, changed, interval, story, with_objects
from showing import see_showing
from sourced import see_manual, see_sources
from stated import see_stated
from texts import see_texts
from unpacking import see_unpacking
from words import see_words

HERE = os.path.dirname(os.path.abspath(__file__))
SAMPLE = story(HELLO + QUIT)
LISTED = [0x324, 0x329]
ITS_CERTIFICATE = certificate(SAMPLE, LISTED)


def help_text(name):
    with open(os.path.join(HERE, "help", name), "rb") as file:
        return file.read()


def manual_page():
    with open(os.path.join(HERE, "..", "..", "docs", "zpc.1"), "rb") as file:
        return file.read()


def done(output=b"", errors=b""):
    return Answer(0, output, errors)


def refused(code):
    return Answer(1, b"", f"refused: {code}\n".encode())


def failed(what, output=b""):
    return Answer(4, output, f"failed: {what}\n".encode())


def fault(line):
    return Answer(3, b"", f"fault: {line}\n".encode())


def files(made=SAMPLE, listed=ITS_CERTIFICATE):
    return {"story": made, "certificate": listed}


def coded(code, addresses):
    made = story(code)
    return files(made, certificate(made, addresses))


def stacked(before, after):
    """A story whose last two instructions, at 326 and 327, are never reached, listed with these slots."""
    made = story(NEW_LINE + QUIT + NOP + QUIT)
    return files(made, certificate(made, range(0x324, 0x328), stacks={0x326: before, 0x327: after}))


def with_routines(*routines, head=b"\x01\0\0", inside=None):
    """A story with this at 326, which a quit follows at 329, listed with these routines. All but the quit at 325 is never reached."""
    made = story(NEW_LINE + QUIT + head + QUIT)
    return files(made, certificate(made, [0x324, 0x325, 0x329], routines=routines, inside={0x329: inside or (1, ONE)}))


def frozen(*ranges):
    return files(listed=certificate(SAMPLE, LISTED, ranges=ranges))


def with_links(*links):
    """The story with two objects, where these bytes are changed, listed."""
    made = with_objects()
    for place, number in links:
        made = changed(made, place, number)
    return files(made, certificate(made, [0x370]))


def with_any_globals(*bytes_there):
    """The same, where the globals may have any value."""
    made = with_links(*bytes_there)["story"]
    return files(made, certificate(made, [0x370], values=(-32768, 32767)))


ONE, TWO, WIDE = interval(1, 1), interval(2, 2), interval(-32768, 32767)

# It pushes the packed address of the routine at 32e, which gives 1, and calls what it pulls off.
PUSHED = story(b"\xe8\x3f\x01\x97" + b"\xe0\xbf\x00\x12" + QUIT + b"\0" * 2 + b"\xb0")
PUSHED_LISTED = certificate(
    PUSHED, [0x324, 0x328, 0x32C, 0x32F], stacks={0x328: interval(0x197, 0x197)}, routines=[(0x32E, 0, (1, 1))], inside={0x32F: (1, b"")}, own={18: (0, 1)}
)
# A branch that is always taken, over two instructions.
TAKEN = b"\x90\x00\xc4" + NOP * 2 + QUIT

# ---- words: name, words, answer

WORDS = [
    ("help", ["--help"], done(help_text("zpc.txt"))),
    ("help, short", ["-h"], done(help_text("zpc.txt"))),
    ("help, as a command", ["help"], done(help_text("zpc.txt"))),
    ("help of list", ["list", "--help"], done(help_text("list.txt"))),
    ("help of list, as a command", ["help", "list"], done(help_text("list.txt"))),
    ("help of find", ["find", "--help"], done(help_text("find.txt"))),
    ("help of find, as a command", ["help", "find"], done(help_text("find.txt"))),
    ("help of check", ["check", "--help"], done(help_text("check.txt"))),
    ("help of check, as a command", ["help", "check"], done(help_text("check.txt"))),
    ("help of show", ["show", "--help"], done(help_text("show.txt"))),
    ("help of show, as a command", ["help", "show"], done(help_text("show.txt"))),
    ("help of play", ["play", "--help"], done(help_text("play.txt"))),
    ("help of play, as a command", ["help", "play"], done(help_text("play.txt"))),
    ("help of info", ["info", "--help"], done(help_text("info.txt"))),
    ("help of info, as a command", ["help", "info"], done(help_text("info.txt"))),
    ("help of explain", ["explain", "--help"], done(help_text("explain.txt"))),
    ("help of explain, as a command", ["help", "explain"], done(help_text("explain.txt"))),
    ("help of unpack", ["unpack", "--help"], done(help_text("unpack.txt"))),
    ("help of unpack, as a command", ["help", "unpack"], done(help_text("unpack.txt"))),
    ("version", ["--version"], done(b"zpc 0.1.0\n")),
    ("version, short", ["-V"], done(b"zpc 0.1.0\n")),
    ("no words", [], Answer(2, b"", help_text("no_words.txt"))),
    ("an unknown command", ["sing", "story"], Answer(2, b"", help_text("unknown_command.txt"))),
    ("no story", ["play"], Answer(2, b"", help_text("no_story.txt"))),
    ("no story to list", ["list"], Answer(2, b"", help_text("no_story_to_list.txt"))),
    ("no file to find one of", ["find"], Answer(2, b"", help_text("no_file_to_check.txt").replace(b"check", b"find"))),
    ("an empty name for a certificate", ["find", "story", "--output", ""], Answer(2, b"", help_text("empty_certificate.txt"))),
    ("no save to unpack", ["unpack", "story"], Answer(2, b"", help_text("no_save_to_unpack.txt"))),
    ("no certificate to show", ["show", "story"], Answer(2, b"", help_text("no_certificate_to_show.txt"))),
    ("no story to tell of", ["info"], Answer(2, b"", help_text("no_story_to_list.txt").replace(b"list <STORY> [CERT]", b"info <STORY>"))),
    ("a code that there isn't", ["explain", "I19"], Answer(2, b"", help_text("unknown_code.txt"))),
    ("a code of another small letter", ["explain", "z5"], Answer(2, b"", help_text("unknown_code.txt"))),
    ("an empty code", ["explain", ""], Answer(2, b"", help_text("unknown_code.txt"))),
    ("no file to check", ["check"], Answer(2, b"", help_text("no_file_to_check.txt"))),
    ("too many words to list", ["list", "a", "b", "c"], Answer(2, b"", help_text("too_many_to_list.txt"))),
    ("too many words to explain", ["explain", "a", "b"], Answer(2, b"", help_text("too_many_to_explain.txt"))),
    ("too many words to show", ["show", "a", "b", "c", "d"], Answer(2, b"", help_text("too_many_to_show.txt"))),
    ("too many words to play", ["play", "a", "b", "c"], Answer(2, b"", help_text("too_many_to_play.txt"))),
    ("a budget that is no number", ["play", "--budget", "x", "story"], Answer(2, b"", help_text("no_number.txt"))),
    ("a seed that is no number", ["play", "--seed", "x", "story"], Answer(2, b"", help_text("no_number.txt").replace(b"--budget", b"--seed"))),
    ("a budget that is too large", ["play", "--budget", "4294967296", "story"], Answer(2, b"", help_text("too_large.txt"))),
    ("a budget of no digit", ["play", "--budget=", "story"], Answer(2, b"", help_text("empty_budget.txt"))),
    ("a budget without a number", ["play", "--budget"], Answer(2, b"", help_text("no_budget.txt"))),
    ("an empty name for saves", ["play", "--save", "", "story"], Answer(2, b"", help_text("empty_name.txt"))),
    ("no name for saves", ["play", "--save=", "story"], Answer(2, b"", help_text("empty_name.txt"))),
    ("a width of no column", ["play", "--width", "0", "story"], Answer(2, b"", help_text("no_width.txt"))),
    ("a width that is too large", ["play", "--width", "1001", "story"], Answer(2, b"", help_text("no_width.txt").replace(b"0' ", b"1001' ").replace(b" 0 ", b" 1001 "))),
    ("a width that is no number", ["play", "--width", "x", "story"], Answer(2, b"", help_text("no_number.txt").replace(b"--budget", b"--width"))),
    ("a width of no digit", ["play", "--width=", "story"], Answer(2, b"", help_text("empty_budget.txt").replace(b"--budget", b"--width"))),
    ("an empty name for a transcript", ["play", "--transcript", "", "story"], Answer(2, b"", help_text("empty_name.txt").replace(b"--save", b"--transcript"))),
    ("no name for a transcript", ["play", "--transcript=", "story"], Answer(2, b"", help_text("empty_name.txt").replace(b"--save", b"--transcript"))),
    ("an empty name for the lines typed", ["play", "--record", "", "story"], Answer(2, b"", help_text("empty_name.txt").replace(b"--save", b"--record"))),
    ("no name for lines read before", ["play", "--replay=", "story"], Answer(2, b"", help_text("empty_name.txt").replace(b"--save", b"--replay"))),
    ("an empty name for debug information", ["list", "--debug", "", "story"], Answer(2, b"", help_text("empty_name.txt").replace(b"--save", b"--debug"))),
    ("no name for debug information", ["check", "--debug=", "story"], Answer(2, b"", help_text("empty_name.txt").replace(b"--save", b"--debug"))),
    ("two files of debug information", ["play", "--debug", "a", "--debug", "b", "story"], Answer(2, b"", help_text("two_budgets.txt").replace(b"--budget <N>", b"--debug <FILE>"))),
    ("two transcripts", ["play", "--transcript", "a", "--transcript", "b", "story"], Answer(2, b"", help_text("two_budgets.txt").replace(b"--budget <N>", b"--transcript <FILE>"))),
    ("plain twice", ["play", "--plain", "story", "--plain"], Answer(2, b"", help_text("two_flags.txt").replace(b"--status", b"--plain"))),
    ("no saves, with a value", ["play", "--no-save=true", "story"], Answer(2, b"", help_text("flag_with_a_value.txt").replace(b"--status", b"--no-save"))),
    ("two budgets", ["play", "--budget", "1", "--budget", "2", "story"], Answer(2, b"", help_text("two_budgets.txt"))),
    ("a budget to check", ["check", "--budget", "3", "story", "certificate"], Answer(2, b"", help_text("budget_to_check.txt"))),
    ("a budget to list", ["list", "--budget", "3", "story"], Answer(2, b"", help_text("budget_to_list.txt"))),
    ("two flags", ["play", "--status", "story", "--status"], Answer(2, b"", help_text("two_flags.txt"))),
    ("a flag with a value", ["play", "--status=true", "story"], Answer(2, b"", help_text("flag_with_a_value.txt"))),
    ("a budget to find", ["find", "--budget", "3", "story", "certificate"], Answer(2, b"", help_text("budget_to_check.txt").replace(b"check", b"find"))),
    ("a flag to check", ["check", "--status", "story", "certificate"], Answer(2, b"", help_text("status_to_check.txt"))),
    ("an unknown option", ["play", "--bugdet", "3", "story"], Answer(2, b"", help_text("unknown_option.txt"))),
    ("a word that isn't UTF-8", [b"a\xff"], Answer(2, b"", help_text("no_text.txt"))),
    ("a name that isn't UTF-8", ["play", b"a\xff"], Answer(2, b"", help_text("no_text.txt"))),
]

# ---- texts: the words of a text, and what it prints, worked out by hand from the alphabets (Z 3.5.3)

TEXTS = [
    ("an escape", b"\x14\xc2\x80\xa5", b"@"),
    ("shifts alone", b"\x94\xa5", b""),
    ("letters", b"\x35\x51\xc6\x85", b"hello"),
    ("of 4 5 13 the last shift counts", b"\x90\xad", b"5"),
    ("in 4 0 6 a space uses the shift up", b"\x90\x06", b" a"),
    ("5 6 2, an escape that is cut off", b"\x94\xc2", b""),
    ("5 5 6, an escape that is cut off", b"\x94\xa6", b""),
    ("code 1,023", b"\x14\xdf\xfc\xa5", b"?"),
    ("code 0", b"\x14\xc0\x80\xa5", b""),
    ("code 13", b"\x14\xc0\xb4\xa5", b"\n"),
    ("a capital and a mark", b"\x10\xc5\xc8\xa5", b"A."),
    ("an abbreviation that uses the shift up", b"\x10\x20\x98\xa5", b"helloa"),
    ("an abbreviation that is cut off", b"\x98\xa1", b"a"),
]

# ---- listings: name, code from 324 on, and the addresses and names, or what is at fault with it. `8c` jumps over as many bytes
# behind it as its word says, less 2 (Z 15).

LISTINGS = [
    ("the sample", HELLO + QUIT, [(0x324, "print"), (0x329, "quit")]),
    ("only what a jump leads to", b"\x8c\0\x04" + NOP * 2 + QUIT, [(0x324, "jump"), (0x329, "quit")]),
    ("a loop", b"\xbb\x8c\xff\xfe", [(0x324, "new_line"), (0x325, "jump")]),
    ("both ways of a branch", b"\x90\x05\xc4" + NOP * 2 + QUIT, [(0x324, "jz"), (0x327, "nop"), (0x328, "nop"), (0x329, "quit")]),
    ("one way of a branch that returns", b"\x90\x05\x40" + QUIT + NOP, [(0x324, "jz"), (0x327, "quit")]),
    ("nothing behind a quit", QUIT + b"\xbe", [(0x324, "quit")]),
    ("a jump to itself", b"\x8c\xff\xff" + QUIT, [(0x324, "jump")]),
    ("a jump into itself", b"\x8c\0\0" + QUIT, "U1 at 00325"),
    ("an instruction within another", b"\x90\xba\x3f\xff" + QUIT, [(0x324, "jz"), (0x325, "quit"), (0x328, "quit")]),
    ("a byte that is no opcode", NOP + b"\xbe" + QUIT, "U1 at 00325"),
    ("an opcode out of the profile", NOP + b"\xeb\x7f\0" + QUIT, "U1 at 00325"),
    ("an opcode with one operand too few", NOP * 2 + b"\xd4\x7f\x01\0" + QUIT, "U1 at 00326"),
    ("a text without an end", b"\xb2\x35\x51\x46\x85" + QUIT, "U1 at 00324"),
    ("the end of memory", NOP + NOP, "U1 at 00326"),
    ("an instruction that memory ends in", NOP + b"\x8c", "U1 at 00325"),
    ("a jump to a place below 0", b"\x8c\x80\0" + QUIT, "U1 at -31963"),
    ("a jump to a place behind memory", b"\x8c\x7f\xff" + QUIT, "U1 at 08324"),
    ("a jump by a variable", NOP + b"\xac\x10" + QUIT, "U3 at 00325"),
    ("a jump by the stack", b"\xac\0", "U3 at 00324"),
    ("of two faults the lower", b"\x90\x05\xc4" + b"\xac\x10" + b"\xbe", "U3 at 00327"),
    ("of two faults the lower, turned round", b"\x90\x05\xc3" + b"\xbe" + b"\xac\x10", "U1 at 00327"),
]


def lines(listed):
    """The lines of a listing of the main code."""
    return "".join(f"{address:05x} 0 {name}\n" for address, name in listed).encode()


# ---- commands: name, words, files, answer

LIST = ["list", "story"]
LIST_BY = ["list", "story", "certificate"]
CHECK = ["check", "story", "certificate"]
PLAY = ["play", "story"]
PLAY_LISTED = ["play", "story", "certificate"]

COMMANDS = [
    ("check", CHECK, files(), done(b"accepted\n")),
    ("play", PLAY, files(), done(b"hello")),
    ("play by the certificate", PLAY_LISTED, files(), done(b"hello")),
    ("nop and new_line", PLAY_LISTED, coded(NOP + NEW_LINE + QUIT, [0x324, 0x325, 0x326]), done(b"\n")),
    ("a list from another first instruction", LIST, {"story": story(b"\xbe" + QUIT, first=CODE + 1)}, done(b"00325 0 quit\n")),
    ("budget 0", ["play", "--budget", "0", "story"], files(), done(errors=b"end: budget\n")),
    ("budget 0 by the certificate", ["play", "--budget", "0", "story", "certificate"], files(), done(errors=b"end: budget\n")),
    ("budget 1", ["play", "story", "--budget=1"], files(), done(b"hello")),
    ("budget 1 of 2", ["play", "--budget", "1", "story"], {"story": story(HELLO + HELLO + QUIT)}, done(b"hello", b"end: budget\n")),
    ("the largest budget", ["play", "--budget", "4294967295", "story"], files(), done(b"hello")),
    ("status lines asked for", ["play", "--status", "story"], files(), done(b"hello")),
    ("status lines asked for, by the certificate", ["play", "story", "certificate", "--status"], files(), done(b"hello")),
    ("an opcode out of the profile", PLAY, {"story": story(b"\xeb\x7f\x00" + QUIT)}, fault("F2 at 00324")),
    ("a byte that is no opcode", PLAY, {"story": story(NOP + b"\xbe" + QUIT)}, fault("F2 at 00325")),
    ("a text without an end", PLAY, {"story": story(b"\xb2\x35\x51\x46\x85" + QUIT)}, fault("F2 at 00324")),
    ("the end of memory", PLAY, {"story": story(NOP + NOP)}, fault("F1 at 00326")),
    ("a text whose abbreviation uses one", PLAY, {"story": story(b"\xb2\x84\x05" + QUIT + b"\x84\x05", abbreviations=[0x328] * 96)}, fault("F13 at 00324")),
    # what a certificate lists, where it is accepted
    ("a certificate's list", LIST_BY, files(), done(lines([(0x324, "print"), (0x329, "quit")]))),
    ("a certificate's list, with what is never reached", LIST_BY, coded(NEW_LINE + QUIT + NOP + QUIT, range(0x324, 0x328)), done(lines([(0x324, "new_line"), (0x325, "quit"), (0x326, "nop"), (0x327, "quit")]))),
    ("a certificate's list, with a routine that nothing calls", LIST_BY, with_routines((0x326, 1)), done(b"00324 0 new_line\n00325 0 quit\n00329 1 quit\n")),
    ("a list of a story that calls by the stack", LIST, files(PUSHED), done(b"00324 0 push\n00328 0 call\n0032c 0 quit\n")),
    ("a certificate's list, with the routine that is called so", LIST_BY, files(PUSHED, PUSHED_LISTED), done(b"00324 0 push\n00328 0 call\n0032c 0 quit\n0032f 1 rtrue\n")),
    ("a list with what stands behind a branch that is always taken", LIST, coded(TAKEN, [0x324, 0x329]), done(lines([(0x324, "jz"), (0x327, "nop"), (0x328, "nop"), (0x329, "quit")]))),
    ("a certificate's list without it", LIST_BY, coded(TAKEN, [0x324, 0x329]), done(lines([(0x324, "jz"), (0x329, "quit")]))),
    ("a list by the story's own file", ["list", "story", "story"], files(), refused("K1")),
    ("a list by a certificate that breaks a rule", LIST_BY, files(listed=certificate(SAMPLE, [0x324])), refused("I4 at 00324")),
    ("a list by the certificate of another story", LIST_BY, files(listed=certificate(SAMPLE, LISTED, release=2)), refused("S1")),
    ("a list by a certificate that isn't there", ["list", "story", "absent"], files(), failed("file")),
    ("a list of a bad story by a certificate that isn't there", ["list", "story", "absent"], files(bytes(63)), refused("L1")),
    # files that are refused, the story before its certificate
    ("no story there", ["play", "absent"], files(), failed("file")),
    ("no story there to list", ["list", "absent"], files(), failed("file")),
    ("a folder as story to list", ["list", "."], files(), failed("file")),
    ("an empty story to list", LIST, files(b""), refused("L1")),
    ("a story of 131,073 bytes to list", LIST, files(bytes(131073)), refused("L2")),
    ("another version to list", LIST, files(changed(SAMPLE, 0, 5)), refused("L3")),
    ("a first instruction behind the end, listed", LIST, files(changed(SAMPLE, 0x06, 4)), refused("L11")),
    ("no story there to check", ["check", "absent", "certificate"], files(), failed("file")),
    ("no certificate there", ["check", "story", "absent"], files(), failed("file")),
    ("no certificate there to play", ["play", "story", "absent"], files(), failed("file")),
    ("a bad story, and no certificate there", ["check", "story", "absent"], files(bytes(63)), refused("L1")),
    ("a bad story, and no certificate there, played", ["play", "story", "absent"], files(bytes(63)), refused("L1")),
    ("a folder as story", ["play", "."], files(), failed("file")),
    ("an empty story", PLAY, files(b""), refused("L1")),
    ("a story of 63 bytes", PLAY, files(bytes(63)), refused("L1")),
    ("a story of 64 bytes, of version 0", PLAY, files(bytes(64)), refused("L3")),
    ("a story of 131,072 bytes, of version 0", PLAY, files(bytes(131072)), refused("L3")),
    ("a story of 131,073 bytes", PLAY, files(bytes(131073)), refused("L2")),
    ("a story of 1,000,000 bytes", PLAY, files(bytes(1000000)), refused("L2")),
    ("another version", PLAY, files(changed(SAMPLE, 0, 5)), refused("L3")),
    ("a length below 64", PLAY, files(changed(SAMPLE, 0x1A, 0, 31)), refused("L4")),
    ("a length of 64", PLAY, files(changed(SAMPLE, 0x1A, 0, 32)), refused("L5")),
    ("a length above the file's", PLAY, files(changed(SAMPLE, 0x1A, 2)), refused("L4")),
    ("a cut story", PLAY, files(SAMPLE[:-1]), refused("L4")),
    ("a byte more", PLAY, files(SAMPLE + b"\0"), done(b"hello")),
    ("static memory behind the end", PLAY, files(changed(SAMPLE, 0x0E, 3)), refused("L5")),
    ("globals in the header", PLAY, files(changed(SAMPLE, 0x0D, 0x3F)), refused("L6")),
    ("objects in the header", PLAY, files(changed(SAMPLE, 0x0A, 0)), refused("L7")),
    ("a dictionary that is too long", PLAY, files(changed(SAMPLE, 0x322, 0xFF)), refused("L8")),
    ("entries of three bytes", PLAY, files(changed(SAMPLE, 0x321, 3)), refused("L9")),
    ("words that fall", PLAY, files(changed(with_objects(), 0x361, 0x47)), refused("L10")),
    ("words and objects", PLAY, files(with_objects()), done()),
    ("a first instruction behind the end", PLAY, files(changed(SAMPLE, 0x06, 4)), refused("L11")),
    # certificates that are refused
    ("an empty certificate", CHECK, files(listed=b""), refused("K3")),
    ("the story as its certificate", ["check", "story", "story"], files(), refused("K1")),
    ("half a magic", CHECK, files(listed=b"ZP"), refused("K3")),
    ("another magic", CHECK, files(listed=b"ZPCD"), refused("K1")),
    ("another version of certificate", CHECK, files(listed=changed(ITS_CERTIFICATE, 4, 9)), refused("K2")),
    ("a cut certificate", CHECK, files(listed=ITS_CERTIFICATE[:-1]), refused("K3")),
    ("a byte behind a certificate", CHECK, files(listed=ITS_CERTIFICATE + b"\0"), refused("K4")),
    ("a million bytes behind a certificate", CHECK, files(listed=ITS_CERTIFICATE + bytes(1000000)), refused("K4")),
    ("addresses that are equal", CHECK, files(listed=certificate(SAMPLE, [0x324, 0x324])), refused("K5")),
    ("addresses that fall", CHECK, files(listed=certificate(SAMPLE, [0x329, 0x324])), refused("K5")),
    ("an interval with nothing in it", CHECK, files(listed=changed(ITS_CERTIFICATE, 22, 1)), refused("K6")),
    ("an address of 131,072", CHECK, files(listed=certificate(SAMPLE, [0x324, 0x20000])), refused("K7")),
    ("an address of 131,071", CHECK, files(listed=certificate(SAMPLE, [0x324, 0x329, 0x1FFFF])), refused("I1 at 1ffff")),
    ("a stack of 65", CHECK, stacked(WIDE * 65, WIDE * 65), refused("K7")),
    ("a slot with nothing in it", CHECK, stacked(ONE + interval(2, 1), ONE + TWO), refused("K6")),
    ("a range that ends before its first byte", CHECK, frozen((0x221, 0x220)), refused("K5")),
    ("ranges that touch", CHECK, frozen((0x220, 0x221), (0x222, 0x222)), refused("K5")),
    ("a routine of 16 locals", CHECK, with_routines((0x326, 16)), refused("K7")),
    ("a routine at 131,072", CHECK, with_routines((0x20000, 1)), refused("K7")),
    ("routines that are equal", CHECK, with_routines((0x326, 1), (0x326, 1)), refused("K5")),
    ("a routine that isn't counted", CHECK, with_routines((0x326, 1), inside=(2, ONE)), refused("K7")),
    ("a story played by a bad certificate", PLAY_LISTED, files(listed=b"ZPCD"), refused("K1")),
    # rules that are broken
    ("another release", CHECK, files(listed=certificate(SAMPLE, LISTED, release=2)), refused("S1")),
    ("nothing listed", CHECK, files(listed=certificate(SAMPLE, [])), refused("S2")),
    ("the first place isn't listed", CHECK, files(listed=certificate(SAMPLE, [0x329])), refused("S2")),
    ("a global that isn't as stated", CHECK, files(changed(SAMPLE, 0x21F, 1)), refused("S4")),
    ("links to the last object", CHECK, with_links((0x262, 2), (0x26C, 2), (0x26D, 2)), done(b"accepted\n")),
    ("a property table inside another", CHECK, with_links((0x26F, 0x74)), refused("S5")),
    ("a name that goes on", CHECK, with_links((0x271, 0x18)), refused("S5")),
    ("a name that ends early", CHECK, with_links((0x270, 2), (0x275, 0x80)), refused("S5")),
    ("a name of no words", CHECK, with_links((0x279, 0)), done(b"accepted\n")),
    ("two properties of a number", CHECK, with_links((0x275, 0x25)), refused("S5")),
    ("a property 0", CHECK, with_links((0x278, 0x20)), refused("S5")),
    ("a property over another's table", CHECK, with_links((0x275, 0xC3)), refused("S5")),
    ("properties up to the static base", CHECK, with_links((0x27C, 0xFF), (0x285, 0xFE), (0x28E, 0xFD), (0x297, 0x1C)), done(b"accepted\n")),
    ("no end below the static base", CHECK, with_links((0x27C, 0xFF), (0x285, 0xFE), (0x28E, 0xFD), (0x297, 0x3C)), refused("S5")),
    ("globals up to a property table", CHECK, with_any_globals((0x0D, 0x90)), refused("S8")),
    ("globals over a property table's first byte", CHECK, with_any_globals((0x0D, 0x91)), refused("S5")),
    ("abbreviations behind the last property data", CHECK, with_links((0x18, 0x02), (0x19, 0x78)), refused("S7")),
    ("abbreviations over property data", CHECK, with_links((0x18, 0x02), (0x19, 0x77)), refused("S5")),
    ("an abbreviation's text over property data", CHECK, with_links((0x29A, 0x01), (0x29B, 0x3A)), refused("S5")),
    ("a parent that is no object", CHECK, with_links((0x262, 3)), refused("S6")),
    ("a sibling that is no object", CHECK, with_links((0x26C, 3)), refused("S6")),
    ("a child that is no object", CHECK, with_links((0x26D, 255)), refused("S6")),
    ("an abbreviation behind memory", CHECK, files(changed(SAMPLE, 0x25E, 0x7F)), refused("S7")),
    ("globals in the object table", CHECK, files(changed(SAMPLE, 0x0D, 0x41)), refused("S8")),
    ("a listed place with no instruction", CHECK, coded(b"\xeb\x7f\x00" + QUIT, [0x324, 0x327]), refused("I1 at 00324")),
    ("a text that has lost its end", CHECK, files(changed(SAMPLE, 0x327, 0x46)), refused("I1 at 00324")),
    ("a successor that isn't listed", CHECK, files(listed=certificate(SAMPLE, [0x324])), refused("I4 at 00324")),
    ("a routine of one local", PLAY_LISTED, with_routines((0x326, 1)), done(b"\n")),
    ("a routine with another count", CHECK, with_routines((0x326, 0), inside=(1, b"")), refused("S3")),
    ("a routine at an odd place", CHECK, with_routines((0x327, 1), head=b"\0\x01\0"), refused("S3")),
    ("a routine in dynamic memory", CHECK, with_routines((0x220, 0), (0x326, 1), inside=(2, ONE)), refused("S3")),
    ("a routine whose locals are cut off", CHECK, with_routines((0x328, 2), head=b"\0\0\0\0\x02", inside=(1, ONE * 2)), refused("S3")),
    ("a routine behind memory", CHECK, with_routines((0x1FFFE, 1)), refused("S3")),
    ("frozen property defaults", PLAY_LISTED, frozen((0x220, 0x221), (0x223, 0x25D)), done(b"hello")),
    ("a frozen header", CHECK, frozen((0x3F, 0x3F)), refused("S8")),
    ("a frozen global", CHECK, frozen((0x21F, 0x220)), refused("S8")),
    ("a frozen byte of static memory", CHECK, frozen((0x25D, 0x25E)), refused("S8")),
    ("stacks of two", CHECK, stacked(ONE + TWO, ONE + TWO), done(b"accepted\n")),
    ("stacks of 64, each slot within a wider one", PLAY_LISTED, stacked(ONE * 64, WIDE * 64), done(b"\n")),
    ("a slot that is wider than the one after it", CHECK, stacked(WIDE, ONE), refused("I4 at 00326")),
    ("slots turned round", CHECK, stacked(ONE + TWO, TWO + ONE), refused("I4 at 00326")),
    ("a slot that is lost", CHECK, stacked(ONE + TWO, ONE), refused("I4 at 00326")),
    ("a slot that comes", CHECK, stacked(ONE, ONE + TWO), refused("I4 at 00326")),
    ("a stack at the first place", CHECK, files(listed=certificate(SAMPLE, LISTED, stacks={0x324: ONE, 0x329: ONE})), refused("S2")),
    ("a quit that became a new_line", CHECK, files(changed(SAMPLE, 0x329, 0xBB)), refused("I4 at 00329")),
    ("the same, played", PLAY_LISTED, files(changed(SAMPLE, 0x329, 0xBB)), refused("I4 at 00329")),
]


def see_streams(program, count):
    """Streams and files that are no plain files."""
    program_run = lambda *words: subprocess.run(["bash", "-c", *words], cwd=HERE, stdin=subprocess.DEVNULL, capture_output=True, timeout=60)
    data = os.path.join(HERE, "../../crates/zpc/data")
    for name, script, wanted in [
        ("a story from a pipe", '"$1" play <(cat "$2/hello.z3")', done(b"hello")),
        ("story and certificate from pipes", '"$1" play <(cat "$2/hello.z3") <(cat "$2/hello.cert")', done(b"hello")),
        ("checked from pipes", '"$1" check <(cat "$2/hello.z3") <(cat "$2/hello.cert")', done(b"accepted\n")),
        ("a pipe that comes in pieces", '"$1" play <(head -c 100 "$2/hello.z3"; sleep 0.1; tail -c +101 "$2/hello.z3")', done(b"hello")),
        ("an endless pipe", '"$1" play <(yes)', refused("L2")),
        ("a certificate from a pipe in pieces", '"$1" check "$2/hello.z3" <(head -c 100 "$2/hello.cert"; sleep 0.1; tail -c +101 "$2/hello.cert")', done(b"accepted\n")),
        ("an endless certificate", '"$1" check "$2/hello.z3" <(yes)', refused("K1")),
        ("an endless certificate to play by", '"$1" play "$2/hello.z3" <(yes)', refused("K1")),
        ("an endless certificate to list", '"$1" list "$2/hello.z3" /dev/zero', refused("K1")),
        ("a certificate with no end behind it", '"$1" check "$2/hello.z3" <(cat "$2/hello.cert" /dev/zero)', refused("K4")),
        ("a certificate that is cut off in a pipe", '"$1" check "$2/hello.z3" <(head -c -1 "$2/hello.cert")', refused("K3")),
        ("a full device", '"$1" play "$2/hello.z3" >/dev/full', failed("write")),
        ("a full device, by the certificate", '"$1" play "$2/hello.z3" "$2/hello.cert" >/dev/full', failed("write")),
        ("acceptance to a full device", '"$1" check "$2/hello.z3" "$2/hello.cert" >/dev/full', failed("write")),
        ("a list of a story from a pipe", '"$1" list <(cat "$2/hello.z3")', done(lines([(0x324, "print"), (0x329, "quit")]))),
        ("a list to a full device", '"$1" list "$2/hello.z3" >/dev/full', failed("write")),
        ("a list to a closed output", '"$1" list "$2/hello.z3" >&-', failed("write")),
        ("a list of a story by its certificate, from pipes", '"$1" list <(cat "$2/hello.z3") <(cat "$2/hello.cert")', done(lines([(0x324, "print"), (0x329, "quit")]))),
        ("a certificate's list to a full device", '"$1" list "$2/hello.z3" "$2/hello.cert" >/dev/full', failed("write")),
        ("a certificate shown from pipes", '"$1" show <(cat "$2/hello.z3") <(cat "$2/hello.cert") 325 | tail -n 1', done(b"00325 isn't listed\n")),
        ("an endless certificate to show", '"$1" show "$2/hello.z3" <(yes)', refused("K1")),
        ("a certificate shown to a full device", '"$1" show "$2/hello.z3" "$2/hello.cert" >/dev/full', failed("write")),
        ("help to a full device", '"$1" --help >/dev/full', failed("write")),
        ("version to a full device", '"$1" --version >/dev/full', failed("write")),
        ("an output that nobody reads", '"$1" play "$2/hello.z3" > >(exec <&-; sleep 0.2)', None),
        ("errors to a full device", '"$1" play absent 2>/dev/full', Answer(4, b"", b"")),
        ("a closed output", '"$1" play "$2/hello.z3" >&-', failed("write")),
        ("closed errors", '"$1" play absent 2>&-', Answer(4, b"", b"")),
    ]:
        ran = program_run(script, "run", program.path, data)
        answer = Answer(ran.returncode, ran.stdout, ran.stderr)
        # whether a pipe is closed by then is a race: it is written, or named
        well = answer == wanted if wanted else answer in (done(), failed("write"))
        count.see(well, f"{name}: {answer}; wanted was {wanted}")


def see_endless(program, count):
    """What a story prints that never ends is seen while it plays, on both machines; and where nobody reads any more, the play ends."""
    made = story(HELLO + b"\x8c\xff\xfa")
    given = {"story": made, "certificate": certificate(made, [0x324, 0x329])}
    for words in (["story"], ["story", "certificate"]):
        with tempfile.TemporaryDirectory(prefix="endless-") as room:
            for name, contents in given.items():
                with open(os.path.join(room, name), "wb") as file:
                    file.write(contents)
            play = subprocess.Popen(
                [program.path, "play", "--budget", "4294967295", *words], cwd=room, stdin=subprocess.DEVNULL, stdout=subprocess.PIPE, stderr=subprocess.PIPE
            )
            late = threading.Timer(60, play.kill)
            late.start()
            first = play.stdout.read(5)
            play.stdout.close()
            errors = play.stderr.read()
            status = play.wait()
            late.cancel()
            play.stderr.close()
            count.is_answer(f"a story that never ends, {words}", Answer(status, first, errors), failed("write", b"hello"))


def main():
    program = Program(sys.argv[1])
    count = Count("runs")
    for name, words, wanted in WORDS:
        count.is_answer(name, program.run(words), wanted)
    for name, words, wanted in TEXTS:
        code = b"\xb2" + words + QUIT
        place = CODE + len(code) + len(code) % 2
        made = story(code.ljust(place - CODE, b"\0") + HELLO[1:], abbreviations=[place] * 96)
        listed = certificate(made, [CODE, CODE + len(code) - 1])
        count.is_answer(f"{name}, checked", program.run(PLAY, files(made)), done(wanted))
        count.is_answer(f"{name}, by its certificate", program.run(PLAY_LISTED, files(made, listed)), done(wanted))
    for name, code, wanted in LISTINGS:
        answer = refused(wanted) if isinstance(wanted, str) else done(lines(wanted))
        count.is_answer(f"{name}, listed", program.run(LIST, {"story": story(code)}), answer)
    for name, words, given, wanted in COMMANDS:
        count.is_answer(name, program.run(words, given), wanted)
    see_plays(program, count)
    see_calls(program, count)
    see_objects(program, count)
    see_properties(program, count)
    see_arrays(program, count)
    see_texts(program, count)
    see_lines(program, count)
    see_lists(program, count, COMMANDS)
    see_frames(program, count)
    see_marks(program, count)
    see_showing(program, count, help_text("no_address.txt"))
    see_sources(program, count)
    see_manual(program, count, manual_page())
    see_excused(program, count)
    see_fronts(program, count)
    see_prompts(program, count)
    see_facts(program, count)
    see_stated(program, count)
    see_many(program, count, help_text("no_file_to_check.txt"), help_text("one_for_many.txt"))
    see_words(program, count)
    see_unpacking(program, count)
    see_asides(program, count)
    see_finding(program, count)
    see_dear(program, count)
    see_game(program, count)
    see_streams(program, count)
    see_endless(program, count)
    count.end()


if __name__ == "__main__":
    main()
