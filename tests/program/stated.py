"""Certificates of version 5, which state facts on globals: what is accepted with them and what isn't, and how that plays. What is printed and
refused is worked out by hand after docs/MACHINE.md and docs/CERTIFICATE.md."""
import struct

from lists import list_of, refusal, run_of
from marks import ANY, CHECK, PLAY, PLAY_LISTED, USUAL, marked
from program import Answer
from samples import CODE, certificate, changed, interval, story, word

FEW = run_of(1, 5)


def stated(file, facts=(), marks=(), limit=USUAL):
    """A certificate of version 1 in version 5, with these marks and facts: of an address, a global counted from variable 16 on, and a set."""
    parts = [struct.pack(">IB", address, number) + some for address, number, some in facts]
    return changed(marked(file, marks, limit), 4, 5) + struct.pack(">I", len(facts)) + b"".join(parts)


# ---- it prints what 100 divided by global 16 is, unless that is 0

DIVIDES = changed(story(bytes.fromhex("A010C9 37641000 E6BF00 BA")), 0x40, 0, 5)
DIVISION, PRINT, END = 0x327, 0x32B, 0x32E
DIVIDED = certificate(DIVIDES, [CODE, DIVISION, PRINT, END], stacks={PRINT: interval(*ANY)}, own={16: (0, 5)})
KNOWN = (DIVISION, 0, FEW)

# What facts, and what the story is refused for with them.
DIVISIONS = [
    ("none", (), "I8 at 00327"),
    ("that it isn't 0", [KNOWN], None),
    ("that it is one of some", [(DIVISION, 0, list_of(1, 2, 5))], "I4 at 00324"),
    ("that it isn't 1 either", [(DIVISION, 0, run_of(2, 5))], "I4 at 00324"),
    ("no more than its own set", [(DIVISION, 0, run_of(0, 5))], "I8 at 00327"),
    ("more than its own set", [(DIVISION, 0, run_of(*ANY))], "I8 at 00327"),
    ("of the global before it", [(DIVISION, 1, run_of(0, 0))], "I8 at 00327"),
    ("of another global too", [KNOWN, (DIVISION, 1, run_of(0, 0))], None),
    ("of another global what it never is", [KNOWN, (DIVISION, 1, run_of(1, 1))], "I4 at 00324"),
    ("behind the division too", [KNOWN, (PRINT, 0, FEW)], None),
    ("behind the division alone", [(PRINT, 0, FEW)], "I8 at 00327"),
    ("where both ways meet", [KNOWN, (END, 0, FEW)], "I4 at 00324"),
    ("where both ways meet, of all that it may be", [KNOWN, (END, 0, run_of(0, 5))], None),
    ("where the story begins", [(CODE, 0, FEW), KNOWN], "S2"),
    ("where the story begins, of all that it may be", [(CODE, 0, run_of(0, 5)), KNOWN], None),
    ("where nothing is listed", [KNOWN, (0x400, 0, run_of(1, 1))], None),
    ("of the last global", [KNOWN, (DIVISION, 239, run_of(0, 0))], None),
    # what isn't spelled as facts
    ("of a global behind the last", [KNOWN, (DIVISION, 240, run_of(0, 0))], "K7"),
    ("one twice", [KNOWN, KNOWN], "K5"),
    ("globals that fall", [(DIVISION, 1, run_of(0, 0)), KNOWN], "K5"),
    ("addresses that fall", [(PRINT, 0, FEW), KNOWN], "K5"),
    ("globals that begin anew at another address", [(DIVISION, 239, run_of(0, 0)), (PRINT, 0, run_of(0, 5))], "I8 at 00327"),
    ("at the last address", [KNOWN, (131071, 0, FEW)], None),
    ("at an address behind the last", [KNOWN, (131072, 0, FEW)], "K7"),
    ("a set of another kind", [(DIVISION, 0, bytes.fromhex("02 0001 0005"))], "K9"),
    ("an interval with nothing in it", [(DIVISION, 0, run_of(5, 1))], "K6"),
]

WHOLE = stated(DIVIDED, [KNOWN])
COUNT_AT = len(WHOLE) - 14
FILES = [
    ("a byte behind them", WHOLE + b"\0", "K4"),
    ("a byte too few", WHOLE[:-1], "K3"),
    ("cut off before them", WHOLE[: COUNT_AT + 4], "K3"),
    ("cut off in their count", WHOLE[: COUNT_AT + 3], "K3"),
    ("one more counted", changed(WHOLE, COUNT_AT, 0, 0, 0, 2), "K3"),
    ("one fewer counted", changed(WHOLE, COUNT_AT, 0, 0, 0, 0), "K4"),
    ("as many as may be counted", changed(WHOLE, COUNT_AT, 0, 16, 0, 0), "K3"),
    ("one more than may be counted", changed(WHOLE, COUNT_AT, 0, 16, 0, 1), "K7"),
    ("read as version 4", changed(WHOLE, 4, 4), "K4"),
    ("read as version 6", changed(WHOLE, 4, 6), "K2"),
]

# ---- the same, but 0 is stored in it before it divides

STORES = changed(story(bytes.fromhex("A010CC 0D1000 37641000 E6BF00 BA")), 0x40, 0, 5)
STORED = certificate(STORES, [CODE, 0x327, 0x32A, 0x32E, 0x331], stacks={0x32E: interval(*ANY)}, own={16: (0, 5)})
STORINGS = [
    ("before the store alone", [(0x327, 0, FEW)], "I8 at 0032a"),
    ("behind the store too", [(0x327, 0, FEW), (0x32A, 0, FEW)], "I4 at 00327"),
    ("behind the store, that it is 0", [(0x32A, 0, run_of(0, 0))], "I8 at 0032a"),
]

# ---- the same, but a routine is called before it divides, which gives global 17 a 7

CALLS = changed(story(bytes.fromhex("A010CE E03F019A11 37641000 E6BF00 BA 00 9B07")), 0x40, 0, 5)
CALL, BEHIND, ROUTINE, FIRST = 0x327, 0x32C, 0x334, 0x335
CALLED = certificate(
    CALLS, [CODE, CALL, BEHIND, 0x330, 0x333, FIRST], stacks={0x330: interval(*ANY)}, routines=[(ROUTINE, 0, (7, 7))], inside={FIRST: (1, b"")}, own={16: (0, 5), 17: (0, 7)}
)  # fmt: skip
CALLINGS = [
    ("before the call alone", [(CALL, 0, FEW)], "I8 at 0032c"),
    ("behind the call too", [(CALL, 0, FEW), (BEHIND, 0, FEW)], "I4 at 00327"),
    ("of what the routine gave", [(CALL, 0, FEW), (BEHIND, 1, run_of(7, 7))], "I4 at 00327"),
    ("where the routine begins", [(CALL, 0, FEW), (FIRST, 0, FEW)], "I12 at 00327"),
    ("where the routine begins, of all that it may be", [(CALL, 0, FEW), (FIRST, 0, run_of(0, 5))], "I8 at 0032c"),
]


def judged(code):
    return Answer(1, b"", f"refused: {code}\n".encode()) if code else Answer(0, b"accepted\n", b"")


def see_certificates(program, count):
    for what, made, file, cases in [("", DIVIDES, DIVIDED, DIVISIONS), ("stored to, ", STORES, STORED, STORINGS), ("behind a call, ", CALLS, CALLED, CALLINGS)]:
        for name, facts, code in cases:
            files = {"story": made, "certificate": stated(file, facts)}
            count.is_answer(f"facts: {what}{name}", program.run(CHECK, files), judged(code))
    for name, file, code in FILES:
        count.is_answer(f"facts: {name}", program.run(CHECK, {"story": DIVIDES, "certificate": file}), judged(code))
        count.see(refusal(file) == int(code[1:]), f"facts: {name}, read by the tests: {refusal(file)}")
    marks = {"story": DIVIDES, "certificate": stated(DIVIDED, [(PRINT, 0, FEW)], [CODE, DIVISION])}
    count.is_answer("facts: behind a mark", program.run(CHECK, marks), Answer(0, b"accepted, marked: 2\n", b""))


def see_played(program, count):
    for divisor, shown in [(5, b"20"), (1, b"100"), (0, b"")]:
        made = changed(DIVIDES, 0x40, *word(divisor))
        for words in (PLAY, PLAY_LISTED):
            count.is_answer(f"facts: divided by {divisor}, {words}", program.run(words, {"story": made, "certificate": WHOLE}), Answer(0, shown, b""))


def see_stated(program, count):
    see_certificates(program, count)
    see_played(program, count)
