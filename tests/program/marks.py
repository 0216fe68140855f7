"""Certificates of version 4, which mark instructions: what is accepted with them and what isn't, and how play goes at marks. What is printed and
told is worked out by hand after docs/MACHINE.md and docs/CERTIFICATE.md."""
from lists import recoded, with_marks
from program import Answer
from samples import CODE, HELLO, QUIT, certificate, changed, interval, story, word

USUAL = 1024
ANY = (-32768, 32767)
CHECK, PLAY, PLAY_LISTED, LIST_BY = ["check", "story", "certificate"], ["play", "story"], ["play", "story", "certificate"], ["list", "story", "certificate"]


def marked(file, marks=(), limit=USUAL):
    """A certificate of version 1 in version 4: with the same intervals, with this limit of frames, and with marks at these addresses."""
    return with_marks(recoded(file), lambda it: it in marks, limit)


# ---- it prints hello, what 100 divided by global 16 is, and what the routine gives that global 17 names, at 338

DIVISION, CALL, ROUTINE, BEHIND = 0x329, 0x330, 0x338, 0x33B
CALLED = HELLO + bytes.fromhex("37641000 E6BF00 E0BF1100 E6BF00 BA 00 9B07")
MADE = changed(story(CALLED), 0x40, 0, 5, *word(ROUTINE // 2))
PLACES = [CODE, DIVISION, 0x32D, CALL, 0x334, 0x337, 0x339]


def listed(made=MADE, places=PLACES, stacks=None, divisor=(0, 5)):
    slots = {0x32D: interval(*ANY), 0x334: interval(*ANY), **(stacks or {})}
    return certificate(made, places, stacks=slots, routines=[(ROUTINE, 0, (7, 7))], inside={0x339: (1, b"")}, own={16: divisor, 17: ANY})


BOTH = marked(listed(), [DIVISION, CALL])
LISTING = (
    b"00324 0 print\n00329 0 div 100, global 16\nmarked: I8: a divisor may be 0.\n0032d 0 print_num\n00330 0 call global 17\n"
    b"marked: I12: a call may be of what is no routine, or hand over what the routine doesn't take.\n00334 0 print_num\n00337 0 quit\n00339 1 ret\n"
)
AT_CALL = BOTH.index(bytes.fromhex("00000330 0000 80")) + 6

# A certificate, what it is refused for, or how many marks it has.
CERTIFICATES = [
    ("what breaks a rule", BOTH, 2),
    ("everything", marked(listed(), PLACES), 7),
    ("what breaks none too", marked(listed(), [CODE, DIVISION, CALL]), 3),
    ("the call alone", marked(listed(), [CALL]), "I8 at 00329"),
    ("the division alone", marked(listed(), [DIVISION]), "I12 at 00330"),
    ("nothing", marked(listed()), "I8 at 00329"),
    ("nothing, in version 1", listed(), "I8 at 00329"),
    ("what breaks a rule, read as version 3", changed(BOTH, 4, 3), "K7"),
    ("what breaks a rule, read as version 5", changed(BOTH, 4, 5), "K3"),
    ("what breaks a rule, in version 5 with no facts", changed(BOTH, 4, 5) + bytes(4), 2),
    ("what breaks a rule, read as version 6", changed(BOTH, 4, 6), "K2"),
    ("a call before which the stack would have 65 slots", changed(BOTH, AT_CALL, 0x80 + 65), "K7"),
    ("a place where no instruction stands", marked(listed(places=[*PLACES, BEHIND]), [DIVISION, CALL, BEHIND]), 3),
    ("all but a place where no instruction stands", marked(listed(places=[*PLACES, BEHIND]), PLACES), "I1 at 0033b"),
    ("a place whose stack isn't what comes to it", marked(listed(stacks={DIVISION: interval(0, 0)}), [DIVISION, CALL]), "I4 at 00324"),
    ("everything, and the first instruction isn't listed", marked(listed(places=PLACES[1:]), PLACES), "S2"),
    ("everything, and a global has another value", marked(listed(divisor=(0, 4)), PLACES), "S4"),
    ("everything, for at most 4,097 frames", marked(listed(), PLACES, 4097), "K7"),
]

# What the two globals are, and how that plays, whatever is marked beside the two.
PLAYS = [
    ("as it is made", (5, ROUTINE // 2), Answer(0, b"hello207", b"")),
    ("a divisor of 0", (0, ROUTINE // 2), Answer(3, b"hello", b"fault: F10 at 00329\n")),
    ("a call of 0", (1, 0), Answer(0, b"hello1000", b"")),
]


def accepted(answer):
    return Answer(0, b"accepted, marked: %d\n" % answer, b"") if isinstance(answer, int) else Answer(1, b"", f"refused: {answer}\n".encode())


def see_certificates(program, count):
    for name, file, answer in CERTIFICATES:
        files = {"story": MADE, "certificate": file}
        count.is_answer(f"marked: {name}", program.run(CHECK, files), accepted(answer))
        if not isinstance(answer, int):
            for words in (PLAY_LISTED, LIST_BY):
                count.is_answer(f"marked: {name}, {words}", program.run(words, files), accepted(answer))
    count.is_answer("marked, listed", program.run(LIST_BY, {"story": MADE, "certificate": BOTH}), Answer(0, LISTING, b""))


def see_played(program, count):
    for name, (divisor, routine), wanted in PLAYS:
        made = changed(story(CALLED), 0x40, *word(divisor), *word(routine))
        count.is_answer(f"marked: {name}, checked", program.run(PLAY, {"story": made}), wanted)
        for marks in ([DIVISION, CALL], PLACES, [DIVISION, 0x32D, CALL]):
            files = {"story": made, "certificate": marked(listed(made), marks)}
            count.is_answer(f"marked: {name}, {len(marks)} marks", program.run(PLAY_LISTED, files), wanted)
    for limit, wanted in [(0, Answer(0, b"hello20", b"end: frame limit\n")), (1, Answer(0, b"hello207", b""))]:
        files = {"story": MADE, "certificate": marked(listed(), [DIVISION, CALL], limit)}
        count.is_answer(f"marked: limit {limit}", program.run(PLAY_LISTED, files), wanted)


def see_marks(program, count):
    see_certificates(program, count)
    see_played(program, count)
