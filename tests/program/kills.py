#!/usr/bin/env python3
"""Plays that save over and over are ended by a signal at random moments. Whatever is ended, and when: what is found in the file is a whole
save, the one that was there or a new one; a link stays a link, and the mode is what it was.

    kills.py PROGRAM [MOMENTS]

Each signal comes at so many moments, 3 if nothing is said, to a play whose file is plain and to one whose file is a link, and to one of three
plays with one file.
"""
import os
import random
import signal
import subprocess
import sys
import tempfile
import time

from program import Count, Program
from samples import CODE, QUIT, STATIC, story
from saves import SAVE, saved

ROOM = 60000  # so that a save has some pages
SAVES = story(SAVE + b"\xb6\xc2" + QUIT, room=ROOM)  # it saves, and goes on from its save, and so on
WHOLE = saved(SAVES, CODE + ROOM, memory=SAVES[: STATIC + ROOM])
OLD = WHOLE.replace(b"IFZS", b"IFZS" + b"AUTH\0\0\0\0", 1)  # one that is whole as well, and another
SIGNALS = [signal.SIGINT, signal.SIGTERM, signal.SIGHUP, signal.SIGKILL]
SEED = 1


def heed():
    """Has a play end by each signal, also where who runs this ignores some, as a shell in the background does."""
    for it in SIGNALS[:-1]:
        signal.signal(it, signal.SIG_DFL)


def left_after(program, rng, room, linked, plays, end):
    """Ends one of so many plays, and then the others. What was in the file behind each, and what is wrong, if anything."""
    file = os.path.join(room, "other" if linked else "kept")
    with open(os.path.join(room, "story"), "wb") as made:
        made.write(SAVES)
    with open(file, "wb") as made:
        made.write(OLD)
    os.chmod(file, 0o600)
    if linked:
        os.symlink("other", os.path.join(room, "kept"))
    words = [program.path, "play", "--budget", "4000000000", "--save", "kept", "story"]
    running = [subprocess.Popen(words, cwd=room, stdin=subprocess.DEVNULL, stdout=subprocess.DEVNULL, stderr=subprocess.DEVNULL, preexec_fn=heed) for _ in range(plays)]
    contents = set()
    for it in running:
        time.sleep(rng.uniform(0, 0.05))
        it.send_signal(end)
        it.wait()
        with open(file, "rb") as made:
            contents.add(made.read())
    wrong = [it for it in contents if it not in (OLD, WHOLE)]
    if wrong:
        return contents, f"{len(wrong[0])} bytes were left, {wrong[0][:30]!r} .."
    if linked != os.path.islink(os.path.join(room, "kept")):
        return contents, "the link is gone"
    if os.stat(file).st_mode & 0o777 != 0o600:
        return contents, f"the mode is {os.stat(file).st_mode:o}"
    return contents, None


def main():
    program = Program(sys.argv[1])
    moments = int(sys.argv[2]) if len(sys.argv) > 2 else 3
    count = Count("kills")
    rng = random.Random(SEED)
    seen = set()
    for moment in range(moments):
        for end in SIGNALS:
            for linked in (False, True):
                for plays in (1, 3):
                    with tempfile.TemporaryDirectory(prefix="kills-") as room:
                        contents, wrong = left_after(program, rng, room, linked, plays, end)
                        seen |= contents
                        count.see(wrong is None, f"{end.name}, {plays} plays, {'a link' if linked else 'a plain file'}, moment {moment}: {wrong}")
    count.see(WHOLE in seen, "no play had saved before it was ended")
    count.end()


if __name__ == "__main__":
    main()
