"""Whether a story is accepted with a certificate: the first rule that is broken, of the story (S1 to S8) and of each listed instruction
(I1 to I18) that isn't marked, in the order that docs/CERTIFICATE.md says."""
from edges import edges_of
from instructions import NoInstruction, decode
from intervals import is_single
from known import Known
from sets import has, within, within_ends, words_in
from sites import NAMING, OBJECTS, Site
from stories import Refused


def judge(story, certificate):
    """Refused where a rule is broken."""
    known = Known(story, certificate)
    for code, holds in STORY_RULES:
        if not holds(known):
            raise Refused(code)
    for place in certificate.instructions:
        code = None if place in certificate.marks else instruction_fault(known, place)
        if code:
            raise Refused(code, place)


# ---- rules of the story


def is_same_story(known):
    story = known.story
    header = story.memory[2:4] + story.memory[0x12:0x18] + story.memory[0x1C:0x1E]
    return known.certificate.header == header and known.certificate.length == story.length


def begins_listed(known):
    found = known.certificate.instructions.get(known.story.first)
    return found is not None and found[0] == 0 and not found[2] and hold_anyway(known.certificate, known.story.first)


def hold_anyway(certificate, place):
    """Whether the facts at a place hold of all that the globals may have."""
    return all(within(certificate.globals[number], kept) for number, kept in certificate.facts_at(place).items())


def has_routines(known):
    story = known.story
    return all(
        at % 2 == 0 and at >= story.static and story.head_of(story.memory, at) == count for at, count, _ in known.certificate.routines
    )


def has_globals(known):
    values = (known.loaded_word(known.story.globals + 2 * it) for it in range(240))
    return all(has(some, value) for some, value in zip(known.certificate.globals, values))


def has_links(known):
    story = known.story
    numbers = (story.link(story.memory, it, which) for it in range(1, story.count + 1) for which in (4, 5, 6))
    return all(it <= story.count for it in numbers)


def has_abbreviations(known):
    return known.abbreviations_whole and not known.abbreviations & known.changing


def keeps_apart(known):
    story = known.story
    table = range(story.objects, story.entry(story.count + 1))
    share = any(story.globals <= it < story.globals + 480 for it in table)
    inside = all(64 <= first and last < story.static for first, last in known.certificate.ranges)
    return not share and inside and not known.frozen & known.changing


STORY_RULES = [
    ("S1", is_same_story),
    ("S2", begins_listed),
    ("S3", has_routines),
    ("S4", has_globals),
    ("S5", Known.has_property_tables),
    ("S6", has_links),
    ("S7", has_abbreviations),
    ("S8", keeps_apart),
]


# ---- rules of an instruction


def instruction_fault(known, place):
    """The lowest rule that the instruction listed at a place breaks, or None."""
    try:
        it = decode(known.story, known.story.memory, place)
    except NoInstruction:
        return "I1"
    if place < known.story.static:
        return "I1"
    site = Site(known, it)
    unnamed = not names_variable(site)
    if not unnamed:
        if not finds_slots(site):
            return "I2"
        if not has_variables(site):
            return "I3"
    later = {code: rule(site) for code, rule in VALUE_RULES.items()} if not unnamed else {}
    edges = [] if unnamed else edges_of(site)
    later["I15"] = not unnamed
    if not unnamed:
        later.update(edge_rules(site, edges))
        leaves = [later["I8"], later["I10"], later["I12"]] + ([later["I5"], later["I7"]] if it.name in ("get_prop", "get_prop_addr") else [])
        if all(leaves) and not all(goes_on(site, it) for it in edges if it.height <= 64):
            return "I4"
    return next((code for code in sorted(later, key=lambda code: int(code[1:])) if not later[code]), None)


def names_variable(site):
    """I15: it asks nothing where the operand has no value."""
    if site.it.name not in NAMING or site.values[0] is None:
        return True
    return is_single(site.values[0]) and 0 <= site.values[0][0] <= 255


def finds_slots(site):
    return not site.lacks_slot and (site.named != 0 or len(site.slots) >= 1)


def has_variables(site):
    named = [it for it in (site.it.to, site.named) if it is not None]
    return not site.lacks_local and all(not 0 < it < 16 or it <= len(site.locals) for it in named)


def names_objects(site):
    return all(1 <= site.values[it][0] and site.values[it][1] <= site.story.count for it in OBJECTS.get(site.it.name, ()))


def names_attribute(site):
    return site.it.name not in ("test_attr", "set_attr", "clear_attr") or within(site.values[1], (0, 31))


def names_properties(site):
    """I7"""
    name = site.it.name
    if name not in ("get_prop", "get_next_prop", "put_prop"):
        return True
    return all(is_answered(site, name, number) for number in site.objects())


def is_answered(site, name, number):
    lower, upper = site.values[1]
    sizes, numbers = site.known.sizes(number), within_ends(site.values[1], 0, 31)
    if name == "get_prop":
        return 1 <= lower and upper <= 31 and all(sizes.get(it, (0, 1))[1] <= 2 for it in numbers)
    if lower < 0 or upper > 31:
        return False
    if name == "get_next_prop":
        return all(it == 0 or it in sizes for it in numbers)
    return all(it in sizes and sizes[it][1] <= 2 for it in numbers)


def divides(site):
    return site.it.name not in ("div", "mod") or not has(site.values[1], 0)


def writes_open(site):
    """I9"""
    name, known = site.it.name, site.known
    if name == "put_prop":
        data = (known.sizes(number).get(it) for number in site.objects() for it in site.property_numbers())
        return all(it is None or known.is_open(range(it[0], it[0] + it[1])) for it in data)
    if name in ("storew", "storeb"):
        return all(known.is_open(it) for it in site.elements())
    return True


def reads_inside(site):
    """I10"""
    name, readable = site.it.name, site.story.readable
    if name == "get_prop_len":
        return all(it[-1] - 1 < readable for it in words_in(site.values[0]))
    if name in ("loadw", "loadb"):
        return all(it[-1] < readable for it in site.elements())
    return True


def prints_fixed(site):
    """I11: of a name and of an inline text the rules before say all."""
    if site.it.name not in ("print_addr", "print_paddr"):
        return True
    times = 1 if site.it.name == "print_addr" else 2
    texts = site.known.fixed_texts()
    return all(times * place in texts for places in words_in(site.values[0]) for place in places)


def calls_listed(site):
    """I12"""
    if site.it.name != "call":
        return True
    return all(enters(site, word) for words in words_in(site.values[0]) for word in words if word)


def enters(site, word):
    certificate, number = site.known.certificate, site.known.routine_at.get(2 * word)
    if number is None:
        return False
    head, count, _ = certificate.routines[number - 1]
    first = head + 1 + 2 * count
    found = certificate.instructions.get(first)
    if found is None or found[0] != number or found[2] or not hold_anyway(certificate, first):
        return False
    initial = [(it, it) for it in (site.known.loaded_word(head + 1 + 2 * k) for k in range(count))]
    initial[: len(site.values) - 1] = site.values[1 : count + 1]
    return all(within(given, kept) for given, kept in zip(initial, found[1]))


def has_buffers(site):
    """I14"""
    if site.it.name != "sread":
        return True
    known = site.known
    if not all(is_single(it) for it in site.values):
        return False
    text, parse = (it[0] % 65536 for it in site.values)
    if not known.is_fixed(text) or not known.is_fixed(parse):
        return False
    letters, words = known.loaded_byte(text), known.loaded_byte(parse)
    if letters < 2 or words < 1:
        return False
    return known.is_open(range(text + 1, text + 1 + letters)) and known.is_open(range(parse + 1, parse + 2 + 4 * words))


def shows_object(site):
    """I18"""
    return site.it.name not in ("show_status", "sread") or within(site.known.certificate.globals[0], (0, site.story.count))


VALUE_RULES = {
    "I5": names_objects,
    "I6": names_attribute,
    "I7": names_properties,
    "I8": divides,
    "I9": writes_open,
    "I10": reads_inside,
    "I11": prints_fixed,
    "I12": calls_listed,
    "I14": has_buffers,
    "I18": shows_object,
}


# ---- rules of what may come of an instruction


def edge_rules(site, edges):
    certificate = site.known.certificate
    result = certificate.routines[site.routine - 1][2] if site.routine else None
    return {
        "I13": all(it.returned is None or (result is not None and within(it.returned, result)) for it in edges),
        "I16": all(within(value, certificate.globals[number - 16]) for it in edges for number, value in it.globals),
        "I17": all(it.height <= 64 for it in edges),
    }


def goes_on(site, edge):
    """I4, of one edge."""
    if edge.returned is not None:
        return True
    certificate = site.known.certificate
    found = certificate.instructions.get(edge.goes)
    if not all(edge.lies_in(number, kept) for number, kept in certificate.facts_at(edge.goes).items()):
        return False
    if found is None or found[0] != site.routine or len(found[2]) != len(edge.slots):
        return False
    return all(within(value, kept) for value, kept in zip(edge.locals + edge.slots, found[1] + found[2]))
