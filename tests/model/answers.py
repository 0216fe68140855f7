"""What a command line has to answer by the model: exit status, output, errors, and the file that is written (README.md has the forms).

What `find` finds isn't searched for here. It is read, and judged by the rules; and where none is found none may be told by the model's own walk."""
import re

import certificates
import marking
from instructions import Listing, NoInstruction, decode, line_of
from lenient import LenientMachine
from machine import Machine, Store
from known import Known
from prompting import PromptedMachine
from rules import instruction_fault, judge
from stories import Refused, Story, signed
from wrapping import in_turns

REASONS = {}  # the first line that `explain` has of each rule and fault: tests/program/finding.py holds its texts


def at(place):
    return b"%05x" % place if 0 <= place < 0x100000 else b"%d" % place


def answer(case, tally, came):
    """What a case has to answer, where this came. The tally counts what was met."""
    saved = case.files.get("saved")
    try:
        status, output, errors, saved = found(case, tally, came) if case.words[0] == "find" else COMMANDS[case.words[0]](case, tally)
    except Refused as refused:
        tally.codes[refused.code] += 1
        where = b"" if refused.place is None else b" at " + at(refused.place)
        status, output, errors = 1, b"", b"refused: %s%s\n" % (refused.code.encode(), where)
    tally.kinds[case.words[0]] += 1
    return status, output, errors, saved


def accepted(case, name):
    """The story of a case and the certificate of this name, which it is accepted with, or Refused."""
    story = Story(case.files["story"])
    certificate = certificates.read(case.files[name])
    judge(story, certificate)
    return story, certificate


def with_marks(line, certificate, tally):
    """The line that tells of a certificate, with the count of its marks where it has some."""
    tally.codes[f"{line}, marked" if certificate.marks else line] += 1
    return (f"{line}, marked: {len(certificate.marks)}\n" if certificate.marks else f"{line}\n").encode()


def checked(case, tally):
    return 0, with_marks("accepted", accepted(case, case.words[2])[1], tally), b"", None


def found(case, tally, came):
    """What is found has to be a certificate that is accepted, and what isn't has to be named."""
    story = Story(case.files["story"])
    options, written = options_of(case.words[1:])[0], came[3]
    if written is None:
        return not_found(story, "--strict" in options, came, tally)
    certificate = certificates.read(written)
    judge(story, certificate)
    if certificate.limit != int(options.get("--frames", certificates.USUAL)):
        return 0, b"another limit of frames", b"", written
    if "--strict" in options and certificate.marks:
        return 0, b"found with no mark", b"", written
    places = lines_of(story, certificate, sorted(certificate.marks)) if "--places" in options else b""
    return 0, with_marks("found", certificate, tally) + places, b"", written


def not_found(story, strict, came, tally):
    """What is told where none is found. With marks one is, where the walk of the model has one."""
    status, _, errors, _ = came
    told = NONE_FOUND.fullmatch(errors)
    if status != 1 or not told or (told[2] == b"G2" and not strict):
        return 1, b"", b"refused: G1 or G2", None
    tally.codes[(told[2] or b"G1").decode()] += 1
    if not strict and marking.certificate_of(story):
        return 0, b"found, since the walk of the model finds one", b"", None
    if told[1] and not marking.breaks(story, told[1].decode()):
        return 1, b"", b"another rule of the story, since the walk of the model keeps this one", None
    return 1, b"", errors, None


def listed(case, tally):
    if len(case.words) == 2:
        return 0, Listing(Story(case.files["story"])).lines(), b"", None
    story, certificate = accepted(case, case.words[2])
    return 0, lines_of(story, certificate, certificate.instructions), b"", None


def lines_of(story, certificate, places):
    """The lines of listed instructions, each with why it is marked if it is."""
    known, lines = Known(story, certificate), []
    known.has_property_tables()
    for place in places:
        is_marked = place in certificate.marks
        lines.append(line_of(place, certificate.instructions[place][0], name_at(story, place, is_marked)))
        if is_marked:
            lines.append(b"marked: %s\n" % REASONS.get(instruction_fault(known, place), b"its rule holds"))
    return b"".join(lines)


def name_at(story, place, is_marked):
    """The name of an instruction that is listed, and behind it its operands where it is marked; where none stands it is marked. In dynamic memory
    none does, since it may change."""
    if place < story.static:
        return "no instruction"
    try:
        it = decode(story, story.memory, place)
    except NoInstruction:
        return "no instruction"
    return it.name + (operands_of(it) if is_marked else "")


OF_OBJECTS = set("jin insert_obj test_attr set_attr clear_attr get_prop get_prop_addr get_next_prop put_prop get_sibling get_child get_parent remove_obj print_obj".split())
BY_NUMBER = set("inc dec inc_chk dec_chk load store pull".split())
SECOND = {
    **dict.fromkeys(("jin", "insert_obj"), "object"),
    **dict.fromkeys(("test_attr", "set_attr", "clear_attr"), "attribute"),
    **dict.fromkeys(("get_prop", "get_prop_addr", "get_next_prop", "put_prop"), "property"),
}


def operands_of(it):
    """The operands of an instruction in words, with a space in front."""
    told = [operand_of(it, at, is_variable, value) for at, (is_variable, value) in enumerate(it.operands)]
    return " " + ", ".join(told) if told else ""


def operand_of(it, at, is_variable, value):
    if is_variable:
        return f"[{variable_of(value)}]" if at == 0 and it.name in BY_NUMBER else variable_of(value)
    if at == 0 and it.name in BY_NUMBER:
        return variable_of(value) if value < 256 else f"variable {value}"
    if at == 0 and it.name == "call":
        return f"routine {2 * value:05x}"
    kind = "object" if at == 0 and it.name in OF_OBJECTS else SECOND.get(it.name) if at == 1 else None
    return f"{kind} {value}" if kind else str(signed(value))


def variable_of(number):
    return f"{'global' if number > 15 else 'local'} {number}" if number else "stack"


def options_of(words):
    """The options of a play by their names, and the names of its files."""
    found, files, words = {}, [], list(words)
    while words:
        it = words.pop(0)
        if it in FLAGS:
            found[it] = True
        elif it.startswith("--"):
            found[it] = words.pop(0)
        else:
            files.append(it)
    return found, files


def is_kept_from(options, saved):
    """Whether a file holds something else than a save, and no word says that it may be lost (README.md)."""
    return "--save" in options and "--force" not in options and not saved.startswith(b"FORM"[: len(saved)])


def played(case, tally):
    options, files = options_of(case.words[1:])
    story, certificate = accepted(case, files[1]) if len(files) > 1 else (Story(case.files["story"]), None)
    if is_kept_from(options, case.files.get("saved", b"")):
        raise Refused("N2")
    tally.codes["played with marks" if certificate and certificate.marks else "played with a certificate"] += certificate is not None
    is_lenient = "--lenient" in options
    store = Store(case.files.get("saved"), None if is_lenient else certificate) if "--save" in options else None
    kind = LenientMachine if is_lenient else PromptedMachine if "--commands" in options else Machine
    machine = kind(story, int(options.get("--seed", 1)), case.typed, "framed" if "--framed-status" in options else "--status" in options, store, tally.opcodes)
    machine.limit = certificate.limit if certificate and not is_lenient else machine.limit
    end = machine.run(int(options["--budget"]))
    for code in machine.told:
        tally.codes[code] += 1
    if machine.resumed:
        tally.codes["restored" + (" with marks" if certificate and certificate.marks else " with a certificate" if certificate else "")] += 1
    told = b"".join(b"save refused: %s\n" % it.encode() for it in machine.told) if "--tell" in options else b""
    if is_lenient:
        told += warnings_of(machine, tally)
    elif "--commands" in options:
        tally.codes.update(machine.commands)
    saved = store.contents if store else None
    output = machine.output
    if "--width" in options and "--plain" not in options:
        output = in_turns(output, machine.asked, int(options["--width"]))
        tally.codes["wrapped"] += 1
    if isinstance(end, int):
        tally.codes[f"F{end}"] += 1
        return 3, output, told + b"fault: F%d at %s\n" % (end, at(machine.place)), saved
    tally.codes[end] += 1
    return 0, output, told + (b"" if end == "quit" else b"end: %s\n" % end.encode()), saved


def in_short(code):
    """What a code means: the first line of its explanation without the code and the last point."""
    return REASONS[code].partition(b": ")[2].removesuffix(b".")


def warnings_of(machine, tally):
    """A line for the first fault of each place, and how many were answered."""
    for number in machine.firsts.values():
        tally.codes[f"F{number}, answered"] += 1
    lines = [b"warning: F%d at %s: %s\n" % (number, at(place), in_short(f"F{number}")) for place, number in machine.firsts.items()]
    return b"".join(lines) + (b"faults answered: %d\n" % machine.count if machine.count else b"")


COMMANDS = {"list": listed, "check": checked, "play": played}
FLAGS = {"--status", "--framed-status", "--tell", "--lenient", "--force", "--strict", "--places", "--plain", "--no-save", "--commands"}
PLACE = rb"( at ([0-9a-f]{5}|-[0-9]+|[0-9]{7,}))?"  # as `at` tells it
NONE_FOUND = re.compile(
    rb"refused: (?:G1\nbroken: (S[1-8])|(G[12])" + PLACE + rb"\n(no certificate: [SIU][0-9]{1,2}" + PLACE + rb"|not found))\n"
)
