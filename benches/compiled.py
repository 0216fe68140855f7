"""Stories that Inform compiled from the sources in stories/, each of which plays as many rounds as its first global says."""
import os
import struct
import subprocess

FOLDER = os.path.join(os.path.dirname(os.path.abspath(__file__)), "stories")
NAMES = ["count", "call", "sieve", "sort", "life", "dict", "walk", "props", "tell"]
AS_COMPILED = struct.pack(">H", 31337)


def made(name, rounds):
    """The story, for a number of rounds."""
    with open(os.path.join(FOLDER, f"{name}.z3"), "rb") as file:
        story = file.read()
    globals_at = struct.unpack(">H", story[12:14])[0]
    assert story[globals_at : globals_at + 2] == AS_COMPILED, name
    return story[:globals_at] + struct.pack(">H", rounds) + story[globals_at + 2 :]


def steps(program, story):
    """How many instructions a story in a file plays."""
    few, many = 0, 1
    while not ends(program, story, many):
        few, many = many, 2 * many
    while few + 1 < many:
        middle = (few + many) // 2
        few, many = (few, middle) if ends(program, story, middle) else (middle, many)
    return many


def ends(program, story, budget):
    """Whether a story comes to its end in so many steps."""
    run = subprocess.run([program, "play", "--budget", str(budget), story], stdin=subprocess.DEVNULL, stdout=subprocess.DEVNULL, stderr=subprocess.PIPE, check=True)
    return b"budget" not in run.stderr
