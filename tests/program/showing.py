"""Runs of `show`: what a certificate says, in words, and what is said of a word that is no address. Each line is worked out by hand."""
from frames import limited
from lists import certificate as certificate_with_lists, list_of, run_of
from program import Answer
from samples import HELLO, NOP, QUIT, certificate, changed, interval, story
from stated import stated

SHOW = ["show", "story", "certificate"]
SAMPLE = story(HELLO + QUIT)
LISTED = [0x324, 0x329]


def claims(heading, own=None, frozen=(), routines=(), values="0"):
    """The lines before the last, where each global has these words, or its own."""
    own = own or {}
    globals_there = [f"global {number}: {own.get(number, values)}" for number in range(16, 256)]
    return "".join(f"{line}\n" for line in [heading, *frozen, *globals_there, *routines])


def shown(*parts):
    return Answer(0, "".join(parts).encode(), b"")


def refused(code):
    return Answer(1, b"", f"refused: {code}\n".encode())


def files(made, listed):
    return {"story": made, "certificate": listed}


PLAIN = files(SAMPLE, certificate(SAMPLE, LISTED))
ITS_CLAIMS = claims("version 1, intervals")
PRINT = "00324 0 print\nheight 0\nits rule holds\n"

# ---- intervals: a routine at 326 of two locals, with an instruction that has a stack, and one that nothing leads to at 32c

INSIDE = story(NOP + QUIT + b"\x02" + b"\0\0\0\7" + b"\xb0" + NOP + QUIT)
INTERVALS = files(INSIDE, certificate(
    INSIDE, [0x324, 0x325, 0x32B, 0x32C, 0x32D], values=(-32768, 32767), ranges=[(0x220, 0x221), (0x223, 0x25D)], routines=[(0x326, 2, (0, 1))],
    inside={0x32B: (1, interval(0, 0) + interval(7, 9))}, stacks={0x32C: interval(-1, 5) + interval(-32768, 32766), 0x32D: interval(-32767, 32767) + interval(-7, -7)},
    own={16: (0, 0), 17: (-5, -3), 255: (-32767, 32767)},
))
ITS_INTERVALS = claims(
    "version 1, intervals", {16: "0", 17: "-5 to -3", 255: "-32767 to 32767"}, ["frozen 00220 to 00221", "frozen 00223 to 0025d"], ["routine 1 at 00326, locals 2, result 0 to 1"], "any word"
)

# ---- lists

LISTS = files(INSIDE, certificate_with_lists(
    INSIDE, [(0x324, 0, [], []), (0x325, 0, [], []), (0x32B, 1, [list_of(-5, 3, 1000), run_of(0, 5)], [list_of(-32768, 32767), run_of(4, 4)])],
    values=run_of(-32768, 32767), routines=[(0x326, 2, list_of(0, 2))], own={20: list_of(-2, 0)},
))
ITS_LISTS = claims("version 2, intervals and lists", {20: "-2, 0"}, (), ["routine 1 at 00326, locals 2, result 0, 2"], "any word")

# ---- a limit of frames

LIMITED = files(SAMPLE, limited(certificate(SAMPLE, LISTED), 4095))

# ---- facts on globals: of one before the print, and of two before the quit; and that one which is 0 isn't

STATING = "version 5, intervals and lists\nframe limit 1024"
FACTS = files(SAMPLE, stated(certificate(SAMPLE, LISTED), [(0x324, 0, run_of(0, 5)), (0x329, 1, list_of(0, 7)), (0x329, 239, run_of(-5, 0))]))
FALSE_FACT = files(SAMPLE, stated(certificate(SAMPLE, LISTED), [(0x329, 0, run_of(1, 5))]))

# The object 0 is asked for its parent: get_parent 0 -> global 16.
ORPHAN = story(b"\x93\0\x10" + QUIT)
ORPHANED = files(ORPHAN, certificate(ORPHAN, [0x324, 0x327]))

# An opcode that isn't played.
BARE = story(b"\xeb\x7f\0" + QUIT)

# ---- name, words, files, answer

RUNS = [
    ("a certificate", SHOW, PLAIN, shown(ITS_CLAIMS, "instructions 2\n")),
    ("an instruction", [*SHOW, "00324"], PLAIN, shown(ITS_CLAIMS, PRINT)),
    ("the last", [*SHOW, "00329"], PLAIN, shown(ITS_CLAIMS, "00329 0 quit\nheight 0\nits rule holds\n")),
    ("an address with fewer digits", [*SHOW, "324"], PLAIN, shown(ITS_CLAIMS, PRINT)),
    ("an address in capitals", [*SHOW, "1A2B"], PLAIN, shown(ITS_CLAIMS, "01a2b isn't listed\n")),
    ("an address that isn't listed", [*SHOW, "00325"], PLAIN, shown(ITS_CLAIMS, "00325 isn't listed\n")),
    ("the address before all", [*SHOW, "0"], PLAIN, shown(ITS_CLAIMS, "00000 isn't listed\n")),
    ("the last address of all", [*SHOW, "fffff"], PLAIN, shown(ITS_CLAIMS, "fffff isn't listed\n")),
    ("intervals", SHOW, INTERVALS, shown(ITS_INTERVALS, "instructions 5\n")),
    ("locals", [*SHOW, "0032b"], INTERVALS, shown(ITS_INTERVALS, "0032b 1 rtrue\nheight 0\nlocal 1: 0\nlocal 2: 7 to 9\nits rule holds\n")),
    ("slots", [*SHOW, "0032d"], INTERVALS, shown(ITS_INTERVALS, "0032d 0 quit\nheight 2\nslot 1: -32767 to 32767\nslot 2: -7\nits rule holds\n")),
    ("a broken rule, of a certificate that isn't accepted", [*SHOW, "0032c"], INTERVALS, shown(
        ITS_INTERVALS, "0032c 0 nop\nheight 2\nslot 1: -1 to 5\nslot 2: -32768 to 32766\nbroken: I4: what follows the instruction isn't known well enough.\n"
    )),
    ("lists", SHOW, LISTS, shown(ITS_LISTS, "instructions 3\n")),
    ("lists of an instruction", [*SHOW, "0032b"], LISTS, shown(
        ITS_LISTS, "0032b 1 rtrue\nheight 2\nlocal 1: -5, 3, 1000\nlocal 2: 0 to 5\nslot 1: -32768, 32767\nslot 2: 4\nbroken: I13: what is returned isn't known, or there is nothing to return to.\n"
    )),
    ("a limit of frames", SHOW, LIMITED, shown(claims("version 3, intervals and lists\nframe limit 4095"), "instructions 2\n")),
    ("an instruction, and a limit of frames", [*SHOW, "00324"], LIMITED, shown(claims("version 3, intervals and lists\nframe limit 4095"), PRINT)),
    ("the least limit of frames", SHOW, files(SAMPLE, limited(certificate(SAMPLE, LISTED), 0)), shown(claims("version 3, intervals and lists\nframe limit 0"), "instructions 2\n")),
    ("a limit of too many frames", SHOW, files(SAMPLE, limited(certificate(SAMPLE, LISTED), 4097)), refused("K7")),
    ("how many facts are stated", SHOW, FACTS, shown(claims(STATING), "instructions 2\nfacts 3\n")),
    ("that none is", SHOW, files(SAMPLE, stated(certificate(SAMPLE, LISTED))), shown(claims(STATING), "instructions 2\n")),
    ("a fact", [*SHOW, "00324"], FACTS, shown(claims(STATING), "00324 0 print\nheight 0\nglobal 16: 0 to 5\nits rule holds\n")),
    ("facts", [*SHOW, "00329"], FACTS, shown(claims(STATING), "00329 0 quit\nheight 0\nglobal 17: 0, 7\nglobal 255: -5 to 0\nits rule holds\n")),
    ("a fact that doesn't hold", [*SHOW, "00329"], FALSE_FACT, shown(claims(STATING), "00329 0 quit\nheight 0\nglobal 16: 1 to 5\nits rule holds\n")),
    ("the instruction before it", [*SHOW, "00324"], FALSE_FACT, shown(
        claims(STATING), "00324 0 print\nheight 0\nbroken: I4: what follows the instruction isn't known well enough.\n"
    )),
    ("no object", [*SHOW, "00324"], ORPHANED, shown(ITS_CLAIMS, "00324 0 get_parent object 0\nheight 0\nbroken: I5: an operand that has to be an object may be none, most often 0.\n")),
    ("the rule of another instruction isn't told", [*SHOW, "00327"], ORPHANED, shown(ITS_CLAIMS, "00327 0 quit\nheight 0\nits rule holds\n")),
    ("a listed place with no instruction", [*SHOW, "00324"], files(BARE, certificate(BARE, [0x324, 0x327])), shown(
        ITS_CLAIMS, "00324 0 no instruction\nheight 0\nbroken: I1: no instruction stands there.\n"
    )),
    ("a certificate that breaks a rule of the story", SHOW, files(SAMPLE, certificate(SAMPLE, [0x329], values=(1, 2))), shown(claims("version 1, intervals", values="1 to 2"), "instructions 1\n")),
    ("the certificate of another story", SHOW, files(SAMPLE, certificate(SAMPLE, LISTED, release=2)), refused("S1")),
    ("the same in version 2", SHOW, files(changed(INSIDE, 0x02, 0, 2), LISTS["certificate"]), refused("S1")),
    ("a bad story and a bad certificate", SHOW, files(bytes(63), b""), refused("L1")),
    ("an empty certificate", SHOW, files(SAMPLE, b""), refused("K3")),
    ("a cut certificate", SHOW, files(SAMPLE, PLAIN["certificate"][:-1]), refused("K3")),
    ("a byte behind a certificate", SHOW, files(SAMPLE, PLAIN["certificate"] + b"\0"), refused("K4")),
    ("another version", SHOW, files(SAMPLE, changed(PLAIN["certificate"], 4, 9)), refused("K2")),
    ("no story there", ["show", "absent", "certificate"], PLAIN, Answer(4, b"", b"failed: file\n")),
    ("no certificate there", ["show", "story", "absent", "00324"], PLAIN, Answer(4, b"", b"failed: file\n")),
    ("a bad story, and no certificate there", ["show", "story", "absent"], files(bytes(63), b""), refused("L1")),
]

# Words that are no address: each is refused before a file is looked at.
NO_ADDRESSES = ["", "x", "0x324", "+324", "-324", "000324", "324 ", "3 24", "0032g", "0032G", "00 24", "$324", "00324.", "ä"]


def see_showing(program, count, no_address):
    for name, words, given, wanted in RUNS:
        count.is_answer(f"show: {name}", program.run(words, given), wanted)
    for word in NO_ADDRESSES:
        count.is_answer(f"show: {word!r} is no address", program.run(["show", "absent", "absent", "--", word]), Answer(2, b"", no_address))
