#!/usr/bin/env python3
"""The largest of everything that a call meets: each is played, checked or refused as it should be, in the memory that is there.

    sizes.py PROGRAM

No clause says that a call succeeds where there is memory, so these runs do. What they print is worked out from the stories' texts.
"""
import os
import re
import resource
import struct
import sys
import tempfile

from calls import RET_POPPED, RTRUE, WIDE, call, call_with, deep, files, printing, routine
from excused import LENIENT, told
from frames import MOST, limited
from lines import telling
from lists import run_of
from marks import ANY
from plays import PRINT_TOP, PUSH, ended, placed
from program import Answer, Count, Program
from samples import CODE, DICTIONARY, NEW_LINE, NOP, QUIT, STATIC, certificate, changed, interval, letter, printed, story, text, word
from saves import FIRST_FRAME, RESTORE, SAVE, saved
from sourced import debug_information
from stated import stated
from unpacking import ways

LONGEST = 131072


def calls_that_take_memory():
    """The public functions of the libraries that are handed an allocator, each by its crate and name."""
    crates = os.path.join(os.path.dirname(os.path.abspath(__file__)), "../../crates")
    for at, _, names in sorted(os.walk(crates)):
        crate, _, part = os.path.relpath(at, crates).partition(os.sep)
        for name in names if part.startswith("src") and crate != "zcalls" else ():
            with open(os.path.join(at, name), encoding="utf-8") as file:
                for called in re.findall(r"(?m)^ *pub fn (\w+)(?:<[^(]*>)?\([^)]*\balloc: Global", file.read()):
                    yield f"{crate} {called}"


def see(program, count, name, made, listed, output, errors=b"", budget=None):
    """A story that is accepted with a certificate, and prints this on both machines."""
    files = {"story": made, "certificate": listed}
    words = ["--budget", str(budget)] if budget is not None else []
    count.is_answer(f"{name}, checked", program.run(["check", "story", "certificate"], files), Answer(0, b"accepted\n", b""))
    count.is_answer(f"{name}, played", program.run(["play", *words, "story"], files), Answer(0, output, errors))
    count.is_answer(f"{name}, by the certificate", program.run(["play", *words, "story", "certificate"], files), Answer(0, output, errors))


def branches_to_prints(order, prints):
    """A story in which 1,300 branches lead to as many prints, from the first one on or, in the order -1, from the last one on. Each
    of so many prints begins two bytes behind the one before it, and all texts share one end. Also the lines that list it."""
    count, first = 1300, CODE + 4 * 1300 + 2
    targets = [first + 2 * it for it in range(count)]
    code, lines = b"", []
    for at, target in zip(range(CODE, first, 4), targets[::order]):
        # `jz 5 ?target` takes four bytes, and its offset counts from two bytes before its end (Z 4.7.2)
        code += b"\x90\x05" + struct.pack(">H", target - (at + 2))
        lines.append(f"{at:05x} 0 jz\n")
    lines.append(f"{first - 2:05x} 0 quit\n")
    code += QUIT + b"\0" + b"\xb2\x10" * prints + b"\xb2\x94\xa5" + QUIT
    lines.extend(f"{target:05x} 0 print\n" for target in targets)
    lines.append(f"{first + 2 * prints + 3:05x} 0 quit\n")
    return story(code), "".join(lines).encode()


def listed_lines(name, addresses):
    return "".join(f"{address:05x} 0 {name}\n" for address in addresses)


def longest_list(program, count):
    """The longest story of an instruction a byte, and long texts that overlap, listed."""
    last = LONGEST - 1
    for name, instruction in [("nop", NOP), ("new_line", NEW_LINE)]:
        made = story(instruction * (LONGEST - CODE - 1) + QUIT)
        lines = listed_lines(name, range(CODE, last)) + f"{last:05x} 0 quit\n"
        count.is_answer(f"the longest story of {name}s, listed", program.run(["list", "story"], {"story": made}), Answer(0, lines.encode(), b""))
    for name, order in [("front", 1), ("end", -1)]:
        made, lines = branches_to_prints(order, 61000)
        count.is_answer(f"long texts from the {name} on, listed", program.run(["list", "story"], {"story": made}), Answer(0, lines, b""))


def longest(program, count):
    """The longest story: one instruction a byte up to its last one, so that most lie above 64 KiB, with the largest certificate
    of such a story, whose values are as wide as can be, and which lists places below the first."""
    room = LONGEST - CODE
    first = CODE + 100
    for name, instruction, printed_each in [("a nop", NOP, b""), ("a new_line", NEW_LINE, b"\n")]:
        made = story(instruction * (room - 1) + QUIT, first=first)
        assert len(made) == LONGEST and made[0x1A:0x1C] == b"\0\0"
        listed = certificate(made, range(CODE, LONGEST), values=WIDE)
        assert len(listed) > 900000
        see(program, count, f"the longest story of {name}s", made, listed, printed_each * (room - 1 - 100))
        see(program, count, f"the same, cut off by its budget", made, listed, printed_each * 70000, b"end: budget\n", 70000)


def highest(program, count):
    """The longest story with stacks of 64 at each place but its first two, which alone are reached: a certificate of 34,260,959
    bytes."""
    made = story(NEW_LINE + QUIT + NOP * (LONGEST - CODE - 3) + QUIT)
    places = range(CODE, LONGEST)
    stacks = dict.fromkeys(places[2:], interval(*WIDE) * 64)
    listed = certificate(made, places, values=WIDE, stacks=stacks)
    assert len(listed) == 987 + 7 * len(places) + 256 * len(places[2:]) == 34260959
    see(program, count, "stacks of 64", made, listed, b"\n")
    files = {"story": made, "certificate": listed + b"\0"}
    count.is_answer("stacks of 64, and a byte behind", program.run(["check", "story", "certificate"], files), Answer(1, b"", b"refused: K4\n"))


def most_routines(program, count):
    """A routine at each even place behind the first two instructions, in the longest story; and one with as many locals and slots
    as can be at each instruction."""
    made = story(NEW_LINE + QUIT + bytes(LONGEST - CODE - 2))
    routines = [(place, 0) for place in range(CODE + 2, LONGEST, 2)]
    assert len(routines) == 65133
    see(program, count, "65,133 routines", made, certificate(made, [CODE, CODE + 1], routines=routines), b"\n")
    wide = interval(*WIDE)
    made = story(NEW_LINE + QUIT + b"\x0f" + bytes(30) + NOP * (LONGEST - CODE - 34) + QUIT)
    places = range(CODE + 33, LONGEST)
    inside = dict.fromkeys(places, (1, wide * 15))
    listed = certificate(made, [CODE, CODE + 1, *places], routines=[(CODE + 2, 15)], inside=inside, stacks=dict.fromkeys(places, wide * 64))
    assert len(listed) == 987 + 9 + 14 + 323 * len(places)
    see(program, count, "15 locals and stacks of 64", made, listed, b"\n")


def deepest(program, count):
    """As many frames above the first as there may be, each with 15 locals and, but the newest, with as many words on its stack as a
    session has room for: by a certificate that names no limit, and by one that names the greatest."""
    words, place = list(range(1, 16)), CODE + 28
    rest = [(it, it) for it in words[1:]]
    one = interval(1, 1)
    for most in (1024, MOST):
        before, after = [(1, most - 1), *rest], [(0, most - 2), *rest]
        lines = [(b"\xa0\x01\x80\xca", [(0, most - 1), *rest]), (b"\x55\x01\x01\x01", before)]
        lines += [(PUSH + b"\x01", after, one * it) for it in range(63)]
        lines += [(call_with(place, 0, 1), after, one * 63), (RET_POPPED, after, one * 63 + interval(15, 15)), (b"\xab\x0f", [(0, 0), *rest])]
        made = files(deep(most - 1, place), [routine(place, words, (15, 15), *lines)])
        listed = made["certificate"] if most == 1024 else limited(made["certificate"], most)
        see(program, count, f"{most} frames of 15 locals and 64 words", made["story"], listed, b"15")


def excused(program, count):
    """Faults that are answered: in the newest of as many frames as there may be, in as much dynamic memory as leaves room for code, and at many
    places. Each is a division by 0."""
    place, divided = CODE + 12, bytes.fromhex("17050010")
    end = b"\xe6\xbf\x10" + QUIT
    main = b"\xe0\x0f" + word(place // 2) + word(MOST - 1) + b"\x10" + end
    called = b"\1\0\0" + b"\xa0\1\xcb" + b"\x96\1" + b"\xe0\x2f" + word(place // 2) + b"\1\0" + RET_POPPED + bytes.fromhex("17050000") + RET_POPPED
    for name, made, places in (
        (f"within {MOST} frames", story(main + b"\0" + called), [place + 15]),
        ("in 65,306 bytes", story(divided + end, room=64700), [CODE + 64700]),
        ("at 20,000 places", story(divided * 20000 + end), [CODE + 4 * it for it in range(20000)]),
    ):
        wanted = Answer(0, b"0", told(*((10, it) for it in places)))
        count.is_answer(f"a fault {name}", program.run(LENIENT, {"story": made}), wanted)


def taken_back(program, count):
    """Lines that are taken back, as many as are kept, in the newest of as many frames as there may be, in as much dynamic memory as leaves room
    for code, on both machines. Behind each line the story prints a letter and reads the next one."""
    room, buffer, parse = 64700, STATIC, STATIC + 300
    place = CODE + room + 12
    main = b"\xe0\x0f" + word(place // 2) + word(MOST - 1) + b"\x10" + b"\xe6\xbf\x10" + QUIT + b"\0"
    called = b"\1\0\0" + b"\xa0\1\xcb" + b"\x96\1" + b"\xe0\x2f" + word(place // 2) + b"\1\0" + RET_POPPED
    # `jump` back over twelve bytes counts from two bytes before its end (Z 4.7.2)
    asked = b"\xe4\x0f" + word(buffer) + word(parse) + b"\xe5\x7f\x61" + b"\x8c" + word(65526)
    made = changed(changed(story(main + called + asked, room=room), buffer, 20), parse, 2)
    typed = b"x\n" * 150 + b"/undo\n" * 101
    wanted = b"a" * 150 + b"[undone]\n\n>" * 100 + b"[nothing to undo]\n\n>"
    answer, listed = program.found(made, flags=("--frames", str(MOST)))
    count.is_answer("a story whose lines are taken back", answer, Answer(0, b"found\n", b""))
    files = {"story": made, "certificate": listed or b""}
    for words in (["story"], ["story", "certificate"]):
        answer = program.run(["play", "--commands", *words], files, typed=typed)
        count.is_answer(f"100 of 150 lines taken back, {words}", answer, Answer(0, wanted, b"end: no input\n"))


def most_callees(program, count):
    """A call by a word that may lead to each of 31,001 routines."""
    main = [b"\xe8\x3f\x03\xe8", (b"\xe0\xbf\x00\x00", interval(1000, 32000)), (PRINT_TOP, interval(1, 1)), QUIT]
    made = files(main, [routine(place, [], (1, 1), (RTRUE, [])) for place in range(2000, 64001, 2)])
    see(program, count, "31,001 routines that a call may enter", made["story"], made["certificate"], b"1")


def most_ranges(program, count):
    """As many frozen ranges as two bytes can place, of which the first isn't behind the header; and as many as property defaults
    have room for."""
    made = story(NEW_LINE + QUIT)
    ranges = [(place, place) for place in range(0, 65536, 2)]
    files = {"story": made, "certificate": certificate(made, [CODE, CODE + 1], ranges=ranges)}
    count.is_answer("32,768 ranges", program.run(["check", "story", "certificate"], files), Answer(1, b"", b"refused: S8\n"))
    see(program, count, "31 ranges", made, certificate(made, [CODE, CODE + 1], ranges=ranges[0x220 // 2 : 0x25E // 2]), b"\n")


def long_certificates(program, count):
    """Certificates above 64 KiB, and at the edges of 4,096 instructions."""
    for instructions in (4095, 4096, 4097, 10000):
        made = story(NEW_LINE * (instructions - 1) + QUIT)
        listed = certificate(made, range(CODE, CODE + instructions), values=WIDE)
        see(program, count, f"{instructions} instructions", made, listed, b"\n" * (instructions - 1))


def many_facts(program, count):
    """A certificate with a fact on each global at each of 250 instructions, and one with ten facts at each of 4,000."""
    for instructions, globals_ in ((250, 240), (4000, 10)):
        made = story(NEW_LINE * (instructions - 1) + QUIT)
        addresses = range(CODE, CODE + instructions)
        listed = stated(certificate(made, addresses), [(at, number, run_of(*ANY)) for at in addresses for number in range(globals_)])
        see(program, count, f"{instructions * globals_} facts", made, listed, b"\n" * (instructions - 1))


def long_texts(program, count):
    """Texts of more than 4,096 characters, up to one that fills the longest story, and a step and a turn of more than 64 KiB."""
    for length in (4096, 4099, 5000, 65536, 190000):
        string = ("the quick brown fox jumps over a lazy dog " * (length // 43 + 1))[:length].replace("w", "x")
        made = story(printed(string) + QUIT)
        place = CODE + len(printed(string))
        see(program, count, f"a text of {length} characters", made, certificate(made, [CODE, place]), string.encode())
    line = "abcdefghijklmnopqrstuvwxyz abcdefghijklmnopqrstuvwxyz abcdefghijklmnopqrstuvwxyz abcdefghijk"
    one = printed(line)
    for instructions in (1023, 1024, 1025):
        made = story(one * instructions + QUIT)
        addresses = [CODE + len(one) * it for it in range(instructions + 1)]
        see(program, count, f"{instructions} prints", made, certificate(made, addresses), line.encode() * instructions)
    # each use of an abbreviation is two Z-characters, and prints 91
    uses = 30000
    code = b"\xb2" + text([1, 0] * uses) + QUIT
    place = CODE + len(code) + len(code) % 2
    made = story(code + b"\0" * (len(code) % 2) + one[1:], abbreviations=[place] * 96)
    listed = certificate(made, [CODE, CODE + len(code) - 1])
    see(program, count, "a step of 2,700,000 bytes", made, listed, line.encode() * uses)


def in_little_room(program, count, name, made, listed, words, wanted):
    """A story that is played on both machines in 16 MiB of address space, of which the program itself and a short play take six."""
    for named in (["story"], ["story", "certificate"]):
        answer = program.run(["play", *words, *named], {"story": made, "certificate": listed}, limits=[(resource.RLIMIT_AS, 16 * 1024 * 1024)])
        count.is_answer(f"{name}, in little room, {len(named)} files", answer, wanted)


def repeats(length, letters):
    """A story that prints so many letters again and again, by an abbreviation of these: each use of it is two Z-characters. Also its
    certificate, and what a step prints."""
    uses, rest = divmod(length, len(letters))
    code = b"\xb2" + text([1, 0] * uses + [letter(it) for it in letters[:rest]])
    code += b"\x8c" + struct.pack(">h", -len(code) - 1)
    place = CODE + len(code) + len(code) % 2
    made = story(code.ljust(place - CODE, b"\0") + text([letter(it) for it in letters]), abbreviations=[place] * 96)
    return made, certificate(made, [CODE, CODE + len(code) - 3]), (letters * uses + letters[:rest]).encode()


def much_in_a_turn(program, count):
    """Steps that each give out 400 times what the story takes: a turn holds no more than what one of them gives out. The same with names
    in status lines, and with steps that give out as much as may be held, and a byte less and more, and half of that."""
    letters = "abcdefghijklmnopqrstuvwxyz" * 60
    for length, of, steps in (
        (1185600, letters, 80), (32767, letters[:128], 1024), (32768, letters[:128], 1024), (32769, letters[:128], 1024),
        (65535, letters[:128], 700), (65536, letters[:128], 700), (65537, letters[:128], 700),
    ):
        made, listed, each = repeats(length, of)
        assert len(made) < 2900
        wanted = Answer(0, each * (steps // 2), b"end: budget\n")
        in_little_room(program, count, f"{length} bytes a step", made, listed, ["--budget", str(steps)], wanted)
    shared = text([letter(it) for it in letters])
    made, start = peopled([text([1, 0] * 380)], b"\xbc" * 40 + QUIT, behind=shared)
    made = changed(made, 0x41, 1)
    listed = certificate(made, range(start, start + 41), own={16: (1, 1)})
    wanted = Answer(0, f"[{letters * 380} | Score: 0 | Moves: 0]\n".encode() * 40, b"")
    in_little_room(program, count, "status lines of 592,800 letters", made, listed, ["--status"], wanted)


def long_names(program, count):
    """Names of 65, 255 and 4,000 bytes, and five words."""
    made = story(NEW_LINE + QUIT)
    listed = certificate(made, [CODE, CODE + 1])
    for length in (64, 65, 255):
        names = {"s" * length: made, "c" * length: listed}
        words = ["play", "--budget", "2", "s" * length, "c" * length]
        count.is_answer(f"names of {length} bytes", program.run(words, names), Answer(0, b"\n", b""))
    deep = "./" * 1990 + "story"
    count.is_answer("a name of 3,985 bytes", program.run(["play", deep], {"story": made}), Answer(0, b"\n", b""))
    count.is_answer("a name that no file can have", program.run(["play", "n" * 100000], {}), Answer(4, b"", b"failed: file\n"))


def told_at_length(program, count):
    """The longest story, told of with a name of 255 bytes, and one with as many routines as a story may call by constants."""
    made = story(NOP * (LONGEST - CODE - 1) + QUIT)
    name = "s" * 250
    answer = program.run(["info", name], {name: made, f"{name}.cert": certificate(made, range(CODE, LONGEST), values=WIDE)})
    told = f"instructions: {LONGEST - CODE}\nopcodes not played: none\ncertificate: version 1, routines 0, instructions {LONGEST - CODE}, marked 0, facts 0\n"
    count.see(answer.status == 0 and answer.output.endswith(told.encode()), f"the longest story, told of: {answer}")
    answer = program.run(["info", "--json", name], {name: made})
    count.see(answer.status == 0 and f'"instructions":{LONGEST - CODE},'.encode() in answer.output, f"the longest story, told of as an object: {answer}")


def unplayed_at_length(program, count):
    """The longest story of an opcode that isn't played, of branches of which each leaves a place behind, and of long texts that overlap."""
    room = LONGEST - CODE
    windows = b"\xeb\x7f\0" * ((room - 1) // 3)
    # `jz sp ?3` passes over the `output_stream 1` behind it, which goes on to the next one.
    branches = b"\xa0\0\xc5\xf3\x7f\1" * ((room - 1) // 6)
    for name, made, met in [
        ("set_window", story((windows + QUIT).ljust(room, QUIT)), f"set_window {(room - 1) // 3}"),
        ("branches", story((branches + QUIT).ljust(room, QUIT)), f"output_stream {(room - 1) // 6}"),
        ("long texts", branches_to_prints(-1, 61000)[0], "none"),
    ]:
        answer = program.run(["info", "story"], {"story": made})
        told = f"\nopcodes not played: {met}\n"
        count.see(answer.status == 0 and told.encode() in answer.output, f"the longest story of {name}, told of: {answer}")


def many_routines(program, count):
    """A story that calls as many routines by constants, one after another: listed, searched and played."""
    for routines in (500, 501, 18000):
        first = CODE + 5 * routines + 1
        first += first % 2
        places = [first + 2 * it for it in range(routines)]
        code = b"".join(call(place, 17) for place in places) + QUIT
        code = code.ljust(first - CODE, b"\0") + (b"\0" + RTRUE) * routines
        made = story(code)
        lines = "".join(f"{CODE + 5 * it:05x} 0 call\n" for it in range(routines)) + f"{CODE + 5 * routines:05x} 0 quit\n"
        lines += "".join(f"{place + 1:05x} {it} rtrue\n" for it, place in enumerate(places, 1))
        count.is_answer(f"{routines} routines, listed", program.run(["list", "story"], {"story": made}), Answer(0, lines.encode(), b""))
        see_found(program, count, f"{routines} routines", made, b"")


def see_found(program, count, name, made, output):
    """A story whose certificate is found, accepted and played."""
    answer, listed = program.found(made)
    count.is_answer(f"{name}, searched", answer, Answer(0, b"found\n", b""))
    see(program, count, f"{name}, as it was found", made, listed or b"", output)


def searched(program, count):
    """Stories of many instructions, whose certificates are found."""
    for instructions in (4095, 4096, 4097, 20001, 60000):
        see_found(program, count, f"{instructions} instructions", story(NEW_LINE * (instructions - 1) + QUIT), b"\n" * (instructions - 1))
    largest = {"story": story(NEW_LINE * 59999 + QUIT)}
    count.is_answer("60000 instructions, searched with a limit", program.run(["find", "--frames", str(MOST), "story", "certificate"], largest), Answer(0, b"found\n", b""))


def long_results(program, count):
    """A routine that prints a text of so many letters, and returns."""
    for length in (600, 5000):
        string = ("abcdefghijklmnopqrstuvwxyz " * (length // 27 + 1))[:length]
        print_ret = b"\xb3" + printed(string)[1:]
        given = files(printing(call(0x360, 0), (1, 1)), [routine(0x360, [], (1, 1), (print_ret, []))])
        see(program, count, f"print_ret of {length} letters", given["story"], given["certificate"], string.encode() + b"\n1")


def peopled(names, code, properties=b"", behind=None):
    """A story of objects with these names, or these texts of names, and these properties, and where its code begins. Each abbreviation has
    the text that is behind the code, if there is one."""
    texts = [it if isinstance(it, bytes) else text([letter(character) for character in it]) for it in names]
    tables = [bytes([len(it) // 2]) + it + properties + b"\0" for it in texts]
    place, entries = STATIC + 9 * len(names), b""
    for table in tables:
        entries += bytes(7) + word(place)
        place += len(table)
    room = place - STATIC + (place - STATIC) % 2
    code += b"\0" * (len(code) % 2)
    made = story(code + (behind or b""), room=room, abbreviations=[CODE + room + len(code)] * 96 if behind else None)
    return changed(made, STATIC, *entries, *b"".join(tables)), CODE + room


def status_lines(program, count):
    """Status lines with names of many letters, and many of them in a turn."""
    for letters, lines in ((40, 1), (41, 1), (64, 1), (65, 1), (765, 1), (3, 301), (3, 302), (3, 303), (3, 2000), (765, 1100)):
        name = ("abcdefghijklmnopqrstuvwxyz" * 30)[:letters]
        made, start = peopled([name], b"\xbc" * lines + QUIT)
        made = changed(made, 0x41, 1)
        listed = certificate(made, range(start, start + lines + 1), own={16: (1, 1)})
        given = {"story": made, "certificate": listed}
        wanted = Answer(0, f"[{name} | Score: 0 | Moves: 0]\n".encode() * lines, b"")
        for words in (["story"], ["story", "certificate"]):
            what = f"{lines} status lines with a name of {letters} letters, {len(words)} files"
            count.is_answer(what, program.run(["play", "--status", *words], given), wanted)


def many_objects(program, count):
    """As many objects as there may be, each with a name and 31 properties: the last one's is printed, and it is asked for its last."""
    properties = b"".join(bytes([number, number + 100]) for number in range(31, 0, -1))
    for objects in (250, 251, 255):
        names = [chr(97 + it % 26) * 3 for it in range(objects)]
        code = b"\x9a" + bytes([objects]) + b"\x51\x10\x01\x00" + PRINT_TOP + QUIT
        made, start = peopled(names, code, properties)
        made = changed(made, 0x41, objects)
        listed = certificate(made, [start, start + 2, start + 6, start + 9], own={16: (1, objects)}, stacks={start + 6: interval(0, 255)})
        see(program, count, f"{objects} objects of 31 properties", made, listed, names[-1].encode() + b"101")
        see_found(program, count, f"{objects} objects of 31 properties", made, names[-1].encode() + b"101")


def many_words(program, count):
    """A line of as many words as a line can have, of which a parse buffer takes so many."""
    room = 1400
    buffer, parse, start = STATIC, STATIC + 300, CODE + room
    for words, takes in ((9, 9), (127, 127), (127, 255), (127, 8)):
        told = min(words, takes)
        last = parse + 2 + 4 * (told - 1)
        lines = placed([b"\xe4\x0f" + word(buffer) + word(parse), *telling(parse + 1, 1), *telling(last + 2, 2), QUIT], start)
        made = story(b"".join(code for _, code, _ in lines), room=room)
        made = changed(changed(made, buffer, 255), parse, takes)
        stacks = {at: slots for at, _, slots in lines}
        listed = certificate(made, list(stacks), stacks=stacks, ranges=[(buffer, buffer), (parse, parse)])
        typed = b" ".join([b"a"] * words) + b"\n"
        given, wanted = {"story": made, "certificate": listed}, Answer(0, b"%d 1 %d " % (told, 2 * told - 1), b"")
        for named in (["story"], ["story", "certificate"]):
            answer = program.run(["play", *named], given, typed=typed)
            count.is_answer(f"{told} of {words} words of a line, {len(named)} files", answer, wanted)


def saved_and_restored(program, words, given):
    """What two plays print that share one file of saves, and how long that is."""
    with tempfile.TemporaryDirectory(prefix="zpc-") as room:
        for name, contents in given.items():
            with open(os.path.join(room, name), "wb") as file:
                file.write(contents)
        answers = [program.run_in(room, ["play", "--save", "kept", *words]) for _ in range(2)]
        return *answers, os.path.getsize(os.path.join(room, "kept"))


def deep_saves(program, count):
    """Saves within as many frames, each with 15 locals and 20 words on its stack, and what goes on from them."""
    place, locals_ = CODE + 30, list(range(1, 16))
    rest = [(it, it) for it in locals_[1:]]
    before, after, one = [(1, MOST - 1), *rest], [(0, MOST - 2), *rest], interval(1, 1)
    # at level 0 it goes over what follows, to the save
    skipped = 4 + 20 * 3 + 6 + 1
    lines = [(b"\xa0\x01" + struct.pack(">H", 0x8000 | skipped + 2), [(0, MOST - 1), *rest]), (b"\x55\x01\x01\x01", before)]
    lines += [(PUSH + b"\x01", after, one * it) for it in range(20)]
    lines += [(call_with(place, 0, 1), after, one * 20), (RET_POPPED, after, one * 20 + interval(15, 15))]
    lines += [(SAVE, [(0, 0), *rest]), (b"\xab\x0f", [(0, 0), *rest])]
    for levels in (98, 99, 100, 101, 1023, MOST - 1):
        given = files([RESTORE, *deep(levels, place)[:1], (PRINT_TOP, interval(15, 15)), QUIT], [routine(place, locals_, (15, 15), *lines)])
        if levels >= 1024:
            given["certificate"] = limited(given["certificate"], MOST)
        count.is_answer(f"saves in {levels} levels, checked", program.run(["check", "story", "certificate"], given), Answer(0, b"accepted\n", b""))
        for words in (["story"], ["story", "certificate"]):
            first, second, length = saved_and_restored(program, words, given)
            count.is_answer(f"saved in {levels} levels, {len(words)} files", first, Answer(0, b"15", b""))
            count.is_answer(f"restored in {levels} levels, {len(words)} files", second, Answer(0, b"15", b""))
            # the header, IFhd, and two chunks: dynamic memory, and frames of eight bytes, 15 locals and 20 words, the newest without words
            wanted = 12 + 22 + 8 + STATIC + 8 + 8 + levels * (8 + 30 + 40) + 38
            count.see(length == wanted, f"saved in {levels} levels: {length} bytes, wanted were {wanted}")


def largest_save(program, count):
    """A save of as much dynamic memory as leaves room for code that a header's word can lead to (Z 5.5)."""
    room = 64700
    dynamic = STATIC + room
    code = RESTORE + SAVE + b"\xe6\xbf\x10" + QUIT
    made, start = story(code, room=room), CODE + room
    listed = certificate(made, [start, start + 2, start + 4, start + 7])
    for words in (["story"], ["story", "certificate"]):
        first, second, length = saved_and_restored(program, words, {"story": made, "certificate": listed})
        count.is_answer(f"a save of {dynamic} bytes, {len(words)} files", first, Answer(0, b"0", b""))
        count.is_answer(f"a save of {dynamic} bytes restored, {len(words)} files", second, Answer(0, b"0", b""))
        count.see(length == 12 + 22 + 8 + dynamic + 8 + 8, f"a save of {dynamic} bytes: {length}")


def packed_saves(program, count):
    """Saves of as much dynamic memory, of which each byte is another, within as many routines as may wait, packed and unpacked."""
    made = story(RESTORE + SAVE + QUIT, room=64700)
    dynamic = STATIC + 64700
    frames = FIRST_FRAME + MOST * (b"\0\3\x2e\x0f\0\0" + word(100) + bytes(230))
    for what, memory in (("all bytes changed", bytes(it ^ 255 for it in made[:dynamic])), ("no byte changed", made[:dynamic])):
        save = saved(made, CODE, memory=memory, frames=frames)
        for how, packed in ways(save, made):
            with tempfile.TemporaryDirectory(prefix="sizes-") as room:
                for name, contents in (("story", made), ("his", packed)):
                    with open(os.path.join(room, name), "wb") as file:
                        file.write(contents)
                count.is_answer(f"{what}, {how}, unpacked", program.run_in(room, ["unpack", "story", "his", "out"]), Answer(0, b"", b""))
                with open(os.path.join(room, "out"), "rb") as file:
                    count.see(file.read() == save, f"{what}, {how}: it isn't the save")


def sourced_at_length(program, count):
    """Debug information as long as is read: with 100,000 places of a source, and with names of 8,000,000 bytes."""
    made = story(NOP * 9 + QUIT)
    for points, name in ((100000, "Ring"), (10, "n" * 8000000)):
        debug = debug_information([(CODE + it, 0, it + 1) for it in range(points)], name).ljust(128 * 131072)
        lines = "".join(f"{CODE + it:05x} 0 {'nop' if it < 9 else 'quit'} (bell.inf:{it + 1}, {name})\n" for it in range(10))
        answer = program.run(["list", "--debug", "debug", "story"], {"story": made, "debug": debug})
        count.see(answer == Answer(0, lines.encode(), b""), f"{points} places of the source, with names of {len(name)} bytes: status {answer.status}, {len(answer.output)} bytes, {answer.errors}")


def tallest(program, count):
    """The tallest stack of the checked machine, and one word more."""
    push, back = PUSH + b"\x01", b"\x8c\xff\xfc"
    made = {"story": story(push + back)}
    for steps, wanted in ((2 * 65535 - 1, ended("budget")), (2 * 65535, ended("frame limit")), (200000, ended("frame limit"))):
        count.is_answer(f"pushes in {steps} steps", program.run(["play", "--budget", str(steps), "story"], made), wanted)


# Each call of a library that takes memory, each thing that it grows by, and the runs in which that is largest. What no command calls is
# called by crates/zcalls alone.
GROWTH = [
    ("zstory load", "bytes of the file", longest),
    ("zlist list_story", "instructions", longest_list),
    ("zlist list_story", "overlapping texts", longest_list),
    ("zlist list_story", "routines", many_routines),
    ("zlist new", "instructions and routines of a listing", many_routines),
    ("zcert new", "instructions of a certificate in pieces", long_certificates),
    ("zcert new", "slots and locals of one", highest),
    ("zcert new", "routines of one", most_routines),
    ("zcert new", "frozen ranges of one", most_ranges),
    ("zcert limited", "what `new` grows by: it names a limit besides", long_certificates),
    ("zcert marking", "what `new` grows by: it may mark besides", long_certificates),
    ("zcert stating", "what `marking` grows by, and facts: it may state some", many_facts),
    ("zcert read", "what a certificate in pieces grows by: it is fed at once", long_certificates),
    ("zcert write", "instructions", searched),
    ("zcert write", "routines", many_routines),
    ("zcert new", "fields of a certificate that is built", searched),
    ("zcheck check", "instructions", longest),
    ("zcheck check", "routines", most_routines),
    ("zcheck check", "routines that a call may enter", most_callees),
    ("zcheck check", "objects and properties", many_objects),
    ("zcheck check", "frozen ranges", most_ranges),
    ("zcheck new", "what a certificate in pieces grows by", long_certificates),
    ("zcheck finish", "what `check` grows by, which it calls", longest),
    ("zcheck check_marked", "what `check` grows by, but for a listing", longest),
    ("zcheck check_any", "what `check` and `check_marked` grow by, which it calls", longest),
    ("zcheck judge", "what `check_any` grows by, which it calls", longest),
    ("zrule new", "objects and properties", many_objects),
    ("zfind find", "instructions", searched),
    ("zfind find", "routines", many_routines),
    ("zfind find", "objects and properties", many_objects),
    ("zfind find_limited", "what `find` grows by, which it calls", searched),
    ("zfind find_unmarked", "what `find` grows by, which it calls", searched),
    ("zfind find_marked", "what `find` grows by, which it calls, and walks of the same kind", searched),
    ("zfind write", "instructions", searched),
    ("zfind write", "routines", many_routines),
    ("zfind broken_in_all", "what `find` grows by: the walk is the same", searched),
    ("zengine open", "bytes of memory", longest),
    ("zmachine new", "bytes of memory, twice", longest),
    ("zmachine save_bytes", "frames with their locals and stacks", deep_saves),
    ("zmachine save_bytes", "dynamic memory", largest_save),
    ("zmachine state", "frames, and dynamic memory", excused),
    ("zmachine stand", "frames, and dynamic memory", excused),
    ("zlink new", "frames that there may be", deepest),
    ("zref new", "bytes of memory", longest),
    ("zref run", "text of a step, and of a turn", long_texts),
    ("zref run", "texts of a turn, of which one counts", much_in_a_turn),
    ("zref run", "text before a return", long_results),
    ("zref run", "status lines of a turn, and letters of a name", status_lines),
    ("zref run", "frames", deepest),
    ("zref run", "instructions that were played", longest),
    ("zref run", "words of a stack", tallest),
    ("zref run", "words of a line", many_words),
    ("zref save_bytes", "frames with their locals and stacks", deep_saves),
    ("zref save_bytes", "dynamic memory", largest_save),
    ("zref restore", "frames with their locals and stacks", deep_saves),
    ("zref restore", "dynamic memory", largest_save),
    ("zref excuse", "frames, and dynamic memory", excused),
    ("zref keep", "frames, and memory", taken_back),
    ("zref put_back", "frames, and memory", taken_back),
    ("zplay start", "bytes of memory", longest),
    ("zplay start", "frames that a session may have", deepest),
    ("zplay run", "instructions that were played", longest),
    ("zplay run", "text of a step, and of a turn", long_texts),
    ("zplay run", "texts of a turn, of which one counts", much_in_a_turn),
    ("zplay run", "text before a return", long_results),
    ("zplay run", "status lines of a turn, and letters of a name", status_lines),
    ("zplay run", "words of a line", many_words),
    ("zplay keep", "frames, and memory", taken_back),
    ("zplay put_back", "frames, and memory", taken_back),
    ("zplay save_bytes", "frames with their locals and stacks", deep_saves),
    ("zplay save_bytes", "dynamic memory", largest_save),
    ("zstate opening", "bytes of memory", longest),
    ("zstate resumed", "frames with their locals and stacks", deep_saves),
    ("zquetzal write", "frames and memory", deep_saves),
    ("zunpack unpack", "frames and memory", packed_saves),
    ("zfault new", "bytes and status lines of a turn", status_lines),
    ("zfault bounded", "bytes and status lines of a turn, up to its bound", much_in_a_turn),
    ("zfault from_slice", "letters of a name", status_lines),
    ("zplayer play_checked", "text and status lines of a turn", status_lines),
    ("zplayer play_story", "text and status lines of a turn", status_lines),
    ("zplayer play_leniently", "places of faults", excused),
    ("zplayer opened", "nothing: what is kept of faults takes memory with the first one", None),
    ("zplayer new", "nothing, as that", None),
    ("zprompt play_checked_in", "states of turns, each with its frames and memory", taken_back),
    ("zprompt play_story_in", "states of turns, each with its frames and memory", taken_back),
    ("zscreen render", "bytes and status lines of a turn", None),
    ("zinfo info", "what `list_story` grows by, which it calls", told_at_length),
    ("zinfo unplayed", "bytes of a story, and places that wait", unplayed_at_length),
    ("zinfo text_of_info", "numbers of a story", told_at_length),
    ("zinfo text_of_beside", "numbers of a certificate", told_at_length),
    ("zinfo object_of_info", "letters of a name", told_at_length),
    ("zinfo shown_text", "bytes of a serial number", told_at_length),
    ("zbatch name_beside", "letters of a name", told_at_length),
    ("zbatch summary_line", "a line of five numbers", None),
    ("zjson line_of", "letters of a name", told_at_length),
    ("zjson digest_text", "64 digits", told_at_length),
    ("zjson verdict_line", "what `line_of` grows by, which it calls", None),
    ("zjson instruction_line", "what `line_of` grows by, which it calls", None),
    ("zjson listed_line", "what `line_of` grows by, which it calls", None),
    ("zjson explained_line", "what `line_of` grows by, which it calls", None),
    ("zexplain all_codes", "a line of each of the codes, which are always the same", None),
    ("zcommand read_words", "words, and letters of a word", long_names),
    ("zperform", "names of files", long_names),
    ("zdebug", "records, and letters of a name", sourced_at_length),
    ("zfront line_told", "letters of a name", sourced_at_length),
    ("zfront new", "a piece of 1,024 bytes, and as many as the width has columns", None),
    ("zpc", "words, and names of files", long_names),
]


SMALL_STACK = (resource.RLIMIT_STACK, 512 * 1024)
# 4 MB, and up to half of one more.
LITTLE_MEMORY = [(resource.RLIMIT_AS, kilobytes * 1024) for kilobytes in range(4096, 4609, 16)]


def on_small_machines(program, count):
    """Each command on the sample games, with a stack of 512 KB: it does the same. And in 4 MB of address space, of which the C library takes
    3.3: it does the same, or tells that memory was refused. Of a search, which holds much before it calls what is deepest, that is seen with
    a little more too: where nothing is left, the stack can't grow."""
    data = os.path.join(os.path.dirname(os.path.abspath(__file__)), "../../crates/zpc/data")
    commands = ["explain I5", "info story", "info --json story", "list story", "check story certificate", "show story certificate", "show story certificate 324", "find story found", "find --frames 4096 story deep", "play story", "play story certificate"]
    for name in ["hello", "bell"]:
        made = {}
        for file, ending in [("story", "z3"), ("certificate", "cert")]:
            with open(os.path.join(data, f"{name}.{ending}"), "rb") as contents:
                made[file] = contents.read()
        for command in commands:
            done = program.run(command.split(), made)
            count.see(done.status == 0 and done.output, f"{command} of {name}: {done}")
            count.is_answer(f"{command} of {name} on a small stack", program.run(command.split(), made, limits=[SMALL_STACK]), done)
            for limit in LITTLE_MEMORY if command.startswith("find") else LITTLE_MEMORY[:1]:
                answer = program.run(command.split(), made, limits=[limit])
                refused = answer.status == 4 and answer.errors == b"failed: memory\n" and done.output.startswith(answer.output)
                count.see(answer == done or refused, f"{command} of {name} in {limit[1] // 1024} KB: {answer}")


def main():
    program = Program(sys.argv[1])
    count = Count("sizes")
    for run in dict.fromkeys(run for _, _, run in GROWTH if run):
        run(program, count)
    on_small_machines(program, count)
    for call_ in calls_that_take_memory():
        count.see(any(call_ == row or row == call_.split()[0] for row, _, _ in GROWTH), f"{call_} takes memory, and has no row")
    count.end()


if __name__ == "__main__":
    main()
