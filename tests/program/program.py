"""Runs of the built program, counted."""
import concurrent.futures
import os
import resource
import subprocess
import sys
import tempfile


class Answer:
    """What a run came to."""

    def __init__(self, status, output, errors):
        self.status, self.output, self.errors = status, output, errors

    def __eq__(self, other):
        return (self.status, self.output, self.errors) == (other.status, other.output, other.errors)

    def __repr__(self):
        return f"status {self.status}, {shown(self.output)} on the output, {shown(self.errors)} on the errors"


def shown(piece):
    return repr(piece) if len(piece) <= 300 else f"{len(piece)} bytes from {piece[:60]!r} on"


class Program:
    """A built program, run in a folder of its own with files of these names, on what is typed. A run that doesn't end within the time
    fails. Limits are of the system's resources, each a name of `resource` and how much of it there is."""

    def __init__(self, path):
        self.path = os.path.realpath(path)

    def run(self, words, files=None, stdout=subprocess.PIPE, environment=None, seconds=60, typed=b"", limits=()):
        with tempfile.TemporaryDirectory(prefix="zpc-") as room:
            for name, contents in (files or {}).items():
                with open(os.path.join(room, name), "wb") as file:
                    file.write(contents)
            return self.run_in(room, words, stdout, environment, seconds, typed, limits)

    def run_in(self, folder, words, stdout=subprocess.PIPE, environment=None, seconds=60, typed=b"", limits=()):
        def limited():
            for kind, most in limits:
                resource.setrlimit(kind, (most, most))

        done = subprocess.run(
            [self.path, *words], cwd=folder, input=typed, stdout=stdout, stderr=subprocess.PIPE,
            env={**os.environ, **(environment or {})}, timeout=seconds, preexec_fn=limited if limits else None,
        )
        return Answer(done.returncode, done.stdout or b"", done.stderr)

    def found(self, story, seconds=60, flags=()):
        """What `find` answers of a story with some flags, and the certificate that it wrote, if it wrote one."""
        with tempfile.TemporaryDirectory(prefix="zpc-") as room:
            with open(os.path.join(room, "story"), "wb") as file:
                file.write(story)
            answer = self.run_in(room, ["find", *flags, "story", "certificate"], subprocess.PIPE, None, seconds, b"")
            written = os.path.join(room, "certificate")
            if not os.path.exists(written):
                return answer, None
            with open(written, "rb") as file:
                return answer, file.read()


class Count:
    """Counts what passed and what failed, under a name."""

    def __init__(self, name):
        self.name, self.passed, self.failed = name, 0, 0

    def see(self, well, what):
        if well:
            self.passed += 1
        else:
            self.failed += 1
            print(f"{self.name}: {what}", flush=True)

    def is_answer(self, what, answer, wanted):
        self.see(answer == wanted, f"{what}: {answer}; wanted was {wanted}")

    def end(self):
        print(f"{self.name}: {self.passed} passed, {self.failed} failed")
        sys.exit(1 if self.failed or not self.passed else 0)


def side_by_side(call, items):
    """The call of each item, in their order, as many at a time as there are processors."""
    with concurrent.futures.ThreadPoolExecutor(os.cpu_count() or 1) as pool:
        yield from pool.map(call, items)
