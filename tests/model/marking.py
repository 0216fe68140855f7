"""Marks of certificates (docs/CERTIFICATE.md): where the rules of a story ask for them."""
from known import Known
from rules import STORY_RULES, instruction_fault, judge
from stories import Refused
from walking import Walk


def mark_broken(story, made):
    """Marks each instruction that breaks a rule, and no other."""
    known = Known(story, made)
    if known.has_property_tables():  # else the story breaks a rule, and nothing is asked of instructions
        made.marks = {place for place in made.instructions if instruction_fault(known, place)}


def certificate_of(story):
    """The certificate of a walk that marks what breaks a rule, or None where the story breaks one."""
    made = Walk(story, 4).made
    mark_broken(story, made)
    try:
        judge(story, made)
    except Refused:
        return None
    return made


def breaks(story, code):
    """Whether the certificate of that walk breaks this rule of the story."""
    made = Walk(story, 4).made
    mark_broken(story, made)
    return not dict(STORY_RULES)[code](Known(story, made))
