#!/usr/bin/env python3
"""Runs .ci/release and tests/made.py in a small repository with this one's documents, with a program that only says its version and its help, and
nothing proved. Where groff is installed it renders the manual page, with no warning.

    release.py
"""
import os
import shutil
import subprocess
import sys
import tarfile
import tempfile

from definitions import TOP

sys.path.insert(0, os.path.join(TOP, "tests", "program"))
from program import Count

# what an archive and the stamp of a program are made of
PARTS = [".ci", ".gitignore", "README.md", "HANDLES", "crates.txt", "docs", "tests/made.py", "tests/definitions.py", "crates/zpc/src", "crates/zpc/data"]
SOURCE = "crates/zpc/src/main.rt"
PROGRAM = "crates/zpc/out/zpc"
SAYS = f"""#!/bin/sh
case "$1" in
--version) echo "zpc 9.8.7" ;;
--help) cat "{TOP}/tests/program/help/zpc.txt" ;;
*) cat "{TOP}/tests/program/help/$1.txt" ;;
esac
"""
WHO = ["-c", "user.name=a", "-c", "user.email=a@b", "-c", "commit.gpgsign=false"]


class Answer:
    def __init__(self, done):
        self.status, self.output, self.errors = done.returncode, done.stdout, done.stderr

    def refuses(self, why):
        """Whether the last line on the errors says so. Which sums are wrong stands before it."""
        last = self.errors.splitlines()[-1:] or [""]
        return self.status == 1 and last[0].startswith("refused: ") and why in last[0]

    def __str__(self):
        return f"status {self.status}, {self.output!r}, {self.errors!r}"


class Repository:
    """A small repository with the files that a release reads, and a folder beside it."""

    def __init__(self, room):
        self.top, self.beside = os.path.join(room, "repository"), os.path.join(room, "beside")
        for part in PARTS:
            to = os.path.join(self.top, part)
            os.makedirs(os.path.dirname(to), exist_ok=True)
            here = os.path.join(TOP, part)
            shutil.copytree(here, to) if os.path.isdir(here) else shutil.copy(here, to)
        os.makedirs(self.beside)
        self.git("init", "-q")
        self.commit()

    def git(self, *words):
        return subprocess.run(["git", *WHO, *words], cwd=self.top, check=True, stdout=subprocess.PIPE, text=True).stdout.strip()

    def commit(self):
        self.git("add", "-A")
        self.git("commit", "-q", "-m", "a")

    def run(self, *words, umask=0o22, zone="UTC"):
        done = subprocess.run(
            words, cwd=self.top, stdout=subprocess.PIPE, stderr=subprocess.PIPE, text=True, umask=umask, env={**os.environ, "TZ": zone}
        )
        return Answer(done)

    def release(self, *words, **how):
        return self.run(".ci/release", *words, **how)

    def write(self, path, text, mode=0o644):
        whole = os.path.join(self.top, path)
        os.makedirs(os.path.dirname(whole), exist_ok=True)
        with open(whole, "w", encoding="utf-8") as file:
            file.write(text)
        os.chmod(whole, mode)
        return whole

    def made(self, *command):
        return self.run("python3", "tests/made.py", "run", PROGRAM, *command)

    def path(self, *parts):
        return os.path.join(self.beside, *parts)


def bytes_of(path):
    with open(path, "rb") as file:
        return file.read()


def altered(path):
    """Changes a byte in the middle of a file."""
    held = bytearray(bytes_of(path))
    held[len(held) // 2] ^= 1
    with open(path, "wb") as file:
        file.write(held)


def see_archive(repository, count):
    """An archive of a program that was given: the same each time, with what it should have, and one that can be checked."""
    program = repository.write("../given", SAYS, 0o755)
    commit = repository.git("rev-parse", "HEAD")
    name = f"zpc-9.8.7-{commit[:12]}-unproved-x86_64-linux"
    first = repository.release("--program", program, repository.path("first"))
    second = repository.release("--program", program, repository.path("second"), umask=0o77, zone="Asia/Tokyo")
    count.see(first.status == second.status == 0, f"an archive isn't made: {first}, {second}")
    one, other = (repository.path(it, f"{name}.tar.gz") for it in ("first", "second"))
    count.see(bytes_of(one) == bytes_of(other), "two archives of one commit and program differ")
    count.see(sorted(os.listdir(repository.path("first"))) == [f"{name}.tar.gz", f"{name}.tar.gz.sha256"], "other files are made")
    beside = subprocess.run(["sha256sum", "--check", "--strict", f"{name}.tar.gz.sha256"], cwd=repository.path("first"), capture_output=True)
    count.see(beside.returncode == 0, "the sum beside the archive isn't its sum")
    with tarfile.open(one) as archive:
        members = archive.getmembers()
    when = int(repository.git("log", "-1", "--format=%ct"))
    count.see([it.name for it in members] == sorted(it.name for it in members), "names aren't sorted")
    count.see({(it.uid, it.gid, it.mtime) for it in members} == {(0, 0, when)}, "owner or time isn't fixed")
    modes = {it.mode for it in members if it.isfile() and it.name != f"{name}/zpc"}
    count.see(modes == {0o644} and all(it.isfile() or it.isdir() for it in members), f"other modes, or links: {modes}")
    subprocess.run(["tar", "-xzf", one, "-C", repository.beside], check=True)
    see_unpacked(repository, count, repository.path(name), commit)
    see_checks(repository, count, one, repository.path(name))


def see_unpacked(repository, count, folder, commit):
    """What an archive has: the program as it was, what it is of, and what its users read."""
    there = {os.path.relpath(os.path.join(at, name), folder) for at, _, names in os.walk(folder) for name in names}
    wanted = {"zpc", "zpc.1", "README.md", "COMMIT", "KIT", "SHA256", "docs/PLAYERS.md", "docs/AUTHORS.md", "docs/ARCHIVES.md", "games/bell.z3"}
    count.see(wanted <= there, f"the archive has no {wanted - there}")
    ran = subprocess.run([os.path.join(folder, "zpc"), "--version"], stdout=subprocess.PIPE, text=True)
    count.see(ran.stdout == "zpc 9.8.7\n", "the program of the archive doesn't run")
    count.see(bytes_of(os.path.join(folder, "COMMIT")).decode().strip() == commit, "another commit is told")
    count.see(bytes_of(os.path.join(folder, "KIT")).decode() == repository.run("rt", "version").output, "another kit is told")
    for name in ("README.md", "docs/zpc.1"):
        same = bytes_of(os.path.join(repository.top, name)) == bytes_of(os.path.join(folder, os.path.basename(name)))
        count.see(same, f"{name} isn't as it is here")


def see_checks(repository, count, archive, folder):
    """What --check says of an archive and of its folder, and of what was altered, lacks something, or has more."""
    for path in (archive, folder):
        answer = repository.release("--check", path)
        count.see(answer.status == 0 and "files are as their sums say" in answer.output, f"{path} isn't found right: {answer}")

    def spoiled(why, change):
        other = repository.path("spoiled")
        shutil.rmtree(other, ignore_errors=True)
        shutil.copytree(folder, other)
        change(other)
        answer = repository.release("--check", other)
        count.see(answer.refuses(why), f"a folder that is spoiled: {answer}, and not {why}")

    spoiled("as its SHA256 says", lambda it: altered(os.path.join(it, "zpc")))
    spoiled("as its SHA256 says", lambda it: os.remove(os.path.join(it, "docs", "PLAYERS.md")))
    spoiled("other files", lambda it: repository.write(os.path.join(it, "more"), "more"))
    spoiled("other files", lambda it: os.symlink("zpc", os.path.join(it, "link")))
    spoiled("no SHA256", lambda it: os.remove(os.path.join(it, "SHA256")))
    lost = repository.path("lost.tar.gz")
    shutil.copy(archive, lost)
    count.see(repository.release("--check", lost).refuses("sha256 isn't there"), "an archive with no sum beside it is taken")
    shutil.copy(f"{archive}.sha256", f"{lost}.sha256")
    answer = repository.release("--check", lost)
    count.see(answer.status == 0, f"an archive of another name isn't taken: {answer}")
    altered(lost)
    count.see(repository.release("--check", lost).refuses("isn't as"), "an archive that was altered is taken")
    count.see(repository.release("--check", repository.path("nothing")).refuses("isn't there"), "what isn't there is taken")


def see_refusals(repository, count):
    """What no archive is made of, and what no stamp is left by."""
    target = repository.path("refused")
    for words in ([], ["--program", target], ["--check"], ["--build"], ["a", "b"], ["--unknown"], ["--program"]):
        answer = repository.release(*words)
        count.see(answer.status == 2 and answer.errors.startswith("usage: "), f"{words}: {answer}")

    def refused(why, what):
        answer = repository.release(target)
        count.see(answer.refuses(why), f"{what}: {answer}, and not {why}")

    refused("isn't there", "no program")
    whole = repository.write(PROGRAM, SAYS, 0o755)
    refused("nothing says of which sources it is", "a program with no stamp")
    count.see(repository.made("true").status == 0, "a command's status is lost")
    answer = repository.release(target)
    count.see(answer.status == 0 and "-unproved" not in answer.output, f"the program of the gate: {answer}")
    os.utime(whole, (0, 0))
    count.see(repository.release(target).status == 0, "a time decides")
    answer = repository.release("--program", os.path.join(repository.top, "none"), target)
    count.see(answer.refuses("isn't there"), f"a program that is given and isn't there: {answer}")
    repository.write("untracked", "")
    refused("isn't clean", "a file that isn't known")
    os.remove(os.path.join(repository.top, "untracked"))
    repository.write(PROGRAM, SAYS + "\n", 0o755)
    refused("it was changed", "a program that was changed")
    repository.write(PROGRAM, SAYS, 0o755)
    repository.write(SOURCE, bytes_of(os.path.join(repository.top, SOURCE)).decode() + "\n")
    refused("isn't clean", "a source that was changed")
    repository.commit()
    refused("it is of other sources", "a commit that changes a source")
    count.see(repository.made("false").status == 1, "a command's failure is lost")
    refused("nothing says of which sources it is", "a command that failed")
    repository.made("sh", "-c", f"echo >>{SOURCE}")
    repository.commit()
    refused("nothing says of which sources it is", "a source that was changed meanwhile")
    repository.made("true")
    repository.write("README.md", "another")
    repository.commit()
    answer = repository.release(target)
    count.see(answer.status == 0, f"a commit that changes no source: {answer}")
    count.see(repository.release("--check", f"{target}/{answer.output.split()[1]}").status == 0, "it isn't found right")


def see_building(repository, count):
    """--build makes the program by `rt ci`, here by one that proves nothing and puts a program there, or fails."""
    folder = repository.path("kit")
    os.makedirs(folder)
    for ending in (0, 1):
        repository.write(f"{folder}/rt", f'#!/bin/sh\n[ "$1" = ci ] || {{ echo "a kit"; exit 0; }}\ncp ../given {PROGRAM}\nexit {ending}\n', 0o755)
        answer = repository.run("env", f"PATH={folder}:{os.environ['PATH']}", ".ci/release", "--build", repository.path("built"))
        well = answer.refuses("isn't proved") if ending else answer.status == 0
        count.see(well, f"--build where rt ci ends with {ending}: {answer}")


def see_page(room, count):
    """The manual page: a program is held against it, and it renders."""
    program, check = os.path.join(room, "given"), [sys.executable, os.path.join(TOP, "tests", "manual.py"), "--check"]
    of_help = subprocess.run(check, capture_output=True, text=True)
    count.see(of_help.returncode == 0 and not of_help.stdout, f"the page: {of_help.stdout}")
    of_program = subprocess.run([*check, program], capture_output=True, text=True)
    lines = [it for it in of_program.stdout.splitlines() if it.startswith(("+", "-")) and not it.startswith(("+++", "---"))]
    # Of the page, and of the same page in the program's source.
    count.see(len(lines) == 4 and all(".TH ZPC" in it for it in lines), f"of a program with the same help but its version: {of_program.stdout}")
    if shutil.which("groff"):
        drawn = subprocess.run(["groff", "-man", "-ww", "-z", os.path.join(TOP, "docs", "zpc.1")], capture_output=True, text=True)
        count.see(drawn.returncode == 0 and not drawn.stderr, f"the page: {drawn.stderr}")


def main():
    count = Count("release")
    with tempfile.TemporaryDirectory(prefix="zpc-") as room:
        repository = Repository(room)
        see_archive(repository, count)
        see_refusals(repository, count)
        see_building(repository, count)
        see_page(room, count)
    count.end()


if __name__ == "__main__":
    main()
