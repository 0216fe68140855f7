"""Lenient play: what is done in the place of each fault, and what is told of it. What is printed and told is worked out by hand after
docs/MACHINE.md; what a fault is called is what `explain` says of it (explained.txt)."""
import os

from program import Answer
from samples import HELLO, QUIT, certificate, changed, story, with_objects

AT = 0x370
PLAY, LENIENT = ["play", "story"], ["play", "--lenient", "story"]
NINE = bytes.fromhex("0D1009")  # global 16 is 9
NUMBER = bytes.fromhex("E6BF10BA")  # it is printed, and that's the end
KEPT = bytes.fromhex("E57F6BBA")  # prints k, and ends
BRANCHED = bytes.fromhex("C6E57F6EBAE57F79BA")  # tests: prints y where it holds, and n where not
GIVEN = bytes.fromhex("C6E6BF10BAE57F79BA")  # the same, but that global 16 is printed where not

# What is done, the number of its fault, the code in front of it and behind, and what is printed.
ANSWERED = [
    ("div", 10, NINE, "17050010", NUMBER, b"0"),
    ("mod", 10, NINE, "18050010", NUMBER, b"0"),
    ("jin of 0 in 0", 6, b"", "060000", BRANCHED, b"y"),
    ("jin of 0 in 1", 6, b"", "060001", BRANCHED, b"n"),
    ("test_attr of 0", 6, b"", "0A0003", BRANCHED, b"n"),
    ("test_attr of an attribute that isn't there", 7, b"", "0A0120", BRANCHED, b"n"),
    ("get_sibling of 0", 6, NINE, "910010", GIVEN, b"0"),
    ("get_child of 3, where there are two", 6, NINE, "920310", GIVEN, b"0"),
    ("get_parent of 0", 6, NINE, "930010", NUMBER, b"0"),
    ("set_attr of 0", 6, b"", "0B0003", KEPT, b"k"),
    ("clear_attr of 0", 6, b"", "0C0003", KEPT, b"k"),
    ("insert_obj of 0", 6, b"", "0E0001", KEPT, b"k"),
    ("remove_obj of 0", 6, b"", "9900", KEPT, b"k"),
    ("get_prop of 0", 6, NINE, "11000510", NUMBER, b"0"),
    ("get_prop of number 0", 8, NINE, "11010010", NUMBER, b"0"),
    ("get_prop_addr of 0", 6, NINE, "12000510", NUMBER, b"0"),
    ("get_next_prop of 0", 6, NINE, "13000010", NUMBER, b"0"),
    ("get_next_prop of a property that it lacks", 8, NINE, "13010910", NUMBER, b"0"),
    ("put_prop of a property that it lacks", 8, b"", "E357010907", KEPT, b"k"),
    ("get_prop_len behind what is readable", 12, NINE, "84FFFF10", NUMBER, b"0"),
    ("loadw behind what is readable", 12, NINE, "CF1FFFFE0010", NUMBER, b"0"),
    ("loadb behind what is readable", 12, NINE, "D01FFFFF0010", NUMBER, b"0"),
    ("storew into the header", 11, b"", "E157000007", KEPT, b"k"),
    ("storeb into the header", 11, b"", "E257000007", KEPT, b"k"),
    ("print_obj of 0", 6, b"", "9A00", KEPT, b"k"),
    ("print_addr of no text", 13, b"", "87FFFF", KEPT, b"k"),
    ("print_paddr of no text", 13, b"", "8DFFFF", KEPT, b"k"),
    ("split_window", 2, b"", "EA7F01", KEPT, b"k"),
    ("input_stream", 2, b"", "F47F00", KEPT, b"k"),
    ("sound_effect", 2, b"", "F57F01", KEPT, b"k"),
    ("set_window of the upper one", 2, b"", "EB7F01", KEPT, b""),
    ("output_stream of -1", 2, b"", "F33FFFFF", KEPT, b""),
]

# What stays a fault: its number, and the code.
STAYS = [
    ("a call of no routine", 3, "E03FFFFF10"),
    ("an empty stack", 4, "E97F10"),
    ("a local that isn't there", 5, "0D0107"),
    ("a return from the main routine", 15, "B0"),
    ("a variable that isn't there", 16, "CD1F010007"),
    ("no opcode", 2, "EC7F00"),
]

TWICE = bytes.fromhex("17050010 9511 421103BFF7") + NUMBER  # three times in a loop
SEEN = bytes.fromhex("EB7F01 E57F78 EB7F00 E57F79 F33FFFFF E57F78 F37F01") + KEPT


# Its main code calls a routine at 37e, which divides by 0 three times, opens a window, and asks an attribute of no object.
ROUTINE = bytes.fromhex("00 17050010 9511 421103BFF7 EA7F01 0A0003C1 B0".replace(" ", ""))
DEEP = with_objects(bytes.fromhex("E03F01BF12") + NUMBER + bytes(5) + ROUTINE)


def in_short():
    """What each fault is: the first line that `explain` says of it, without the code and the last point."""
    with open(os.path.join(os.path.dirname(os.path.abspath(__file__)), "explained.txt"), "rb") as file:
        lines = [it for it in file.read().split(b"\n") if it[:1] == b"F" and it.partition(b": ")[0][1:].isdigit()]
    return {int(it.partition(b": ")[0][1:]): it.partition(b": ")[2].removesuffix(b".") for it in lines}


WORDS = in_short()


def told(*answered, count=None):
    """The warnings of faults at places, and how many were answered."""
    lines = [b"warning: F%d at %05x: %s\n" % (number, at, WORDS[number]) for number, at in answered]
    return b"".join(lines) + b"faults answered: %d\n" % (count or len(answered))


DEEP_TOLD = told((10, 0x37F), (2, 0x38A), (6, 0x38D), count=5)


def see_table(program, count):
    for name, number, front, code, behind, printed in ANSWERED:
        made, at = with_objects(front + bytes.fromhex(code) + behind), AT + len(front)
        count.is_answer(f"excused: {name}", program.run(LENIENT, {"story": made}), Answer(0, printed, told((number, at))))
        count.is_answer(f"excused: {name}, strictly", program.run(PLAY, {"story": made}), Answer(3, b"", b"fault: F%d at %05x\n" % (number, at)))
    for name, number, code in STAYS:
        made, wanted = with_objects(bytes.fromhex(code) + KEPT), Answer(3, b"", b"fault: F%d at %05x\n" % (number, AT))
        for words in (PLAY, LENIENT):
            count.is_answer(f"excused: {name} stays a fault, {words}", program.run(words, {"story": made}), wanted)


def see_others(program, count):
    long = changed(with_objects(NINE + bytes.fromhex("11010310") + NUMBER), 0x275, 0x43)
    count.is_answer("excused: get_prop of three bytes", program.run(LENIENT, {"story": long}), Answer(0, b"4660", told((9, AT + 3))))
    loop = {"story": with_objects(TWICE)}
    count.is_answer("excused: one place is told once", program.run(LENIENT, loop), Answer(0, b"0", told((10, AT), count=3)))
    budget = ["play", "--lenient", "--budget"]
    count.is_answer("excused: no step is left", program.run([*budget, "0", "story"], loop), Answer(0, b"", b"end: budget\n"))
    count.is_answer("excused: an answer is a step", program.run([*budget, "1", "story"], loop), Answer(0, b"", told((10, AT)) + b"end: budget\n"))
    seen = told((2, AT), (2, AT + 6), (2, AT + 12), (2, AT + 19))
    count.is_answer("excused: what isn't seen isn't written", program.run(LENIENT, {"story": with_objects(SEEN)}), Answer(0, b"yk", seen))
    count.is_answer("excused: in a routine", program.run(LENIENT, {"story": DEEP}), Answer(0, b"0", DEEP_TOLD))
    nowhere = {"story": with_objects(bytes.fromhex("17050001") + KEPT)}
    count.is_answer("excused: a local that the answer would go to isn't there", program.run(LENIENT, nowhere), Answer(3, b"", b"fault: F5 at %05x\n" % AT))
    plain = {"story": story(HELLO + QUIT)}
    count.is_answer("excused: nothing to answer", program.run(LENIENT, plain), Answer(0, b"hello", b""))
    count.is_answer("excused: no story", program.run(LENIENT, {"story": b""}), Answer(1, b"", b"refused: L1\n"))


def see_with_certificate(program, count):
    words, made = [*LENIENT, "certificate"], story(HELLO + QUIT)
    sound = {"story": made, "certificate": certificate(made, [0x324, 0x329])}
    count.is_answer("excused: with a certificate", program.run(words, sound), Answer(0, b"hello", b""))
    broken = {"story": made, "certificate": b"ZPCX" + bytes(100)}
    count.is_answer("excused: with what is none", program.run(words, broken), Answer(1, b"", b"refused: K1\n"))


def see_excused(program, count):
    see_table(program, count)
    see_others(program, count)
    see_with_certificate(program, count)
