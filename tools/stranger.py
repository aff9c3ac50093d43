#!/usr/bin/env python3
"""stranger.py [RELEASE]: does what the page CLIENTS of a release says, and nothing else: in an empty folder that has only the files
of the release (release/out), with the page that is in its archive, and with an environment of a path and a home. Each program that
the page shows is written as it stands there, each command is run in one shell, and what it prints is compared. It says how long each
language took; the last line is `N passed, M failed`. Needs what the page needs: a C compiler with pkg-config, Python, cargo."""

import gzip
import os
import re
import shutil
import subprocess
import sys
import tarfile
import tempfile
import time

TOP = os.path.dirname(os.path.dirname(os.path.abspath(__file__)))
MARK = "--- done ---"
HEADING = re.compile(r"#+ (.*)")
SHOWN = re.compile(r"<!-- file: (.*) -->")
PLAYED = "<!-- played: tools/stranger.py -->"


def page_of(folder):
    """The page as the archive has it."""
    name = next(it for it in sorted(os.listdir(folder)) if it.endswith(".tar.gz"))
    with tarfile.open(os.path.join(folder, name)) as archive:
        member = next(it for it in archive.getnames() if it.endswith("/CLIENTS.md.gz"))
        return gzip.decompress(archive.extractfile(member).read()).decode()


def block_from(lines, at):
    """The block that follows a mark: its lines, without what comes before them on each line."""
    block = []
    for line in lines[at + 1:]:
        if line and not line.startswith("    "):
            break
        block.append(line[4:])
    return "\n".join(block).strip("\n") + "\n"


def steps(page):
    """The programs and the dialogues of the page, each with the heading above it."""
    lines, heading = page.split("\n"), ""
    for at, line in enumerate(lines):
        if HEADING.match(line):
            heading = HEADING.match(line)[1]
        elif SHOWN.match(line):
            yield heading, os.path.basename(SHOWN.match(line)[1]), block_from(lines, at)
        elif line == PLAYED:
            yield heading, None, block_from(lines, at)


class Shell:
    """A shell that is told one command after the other, in an environment of its own."""

    def __init__(self, folder):
        self.folder = folder
        kept = {name: os.environ[name] for name in ("PATH", "RUSTUP_HOME", "CARGO_HOME") if name in os.environ}
        kept.setdefault("RUSTUP_HOME", os.path.expanduser("~/.rustup"))  # where rustup keeps its compilers
        os.mkdir(os.path.join(folder, ".home"))
        self.process = subprocess.Popen(["sh"], stdin=subprocess.PIPE, stdout=subprocess.PIPE, stderr=subprocess.STDOUT, text=True,
                                        cwd=folder, env={**kept, "HOME": os.path.join(folder, ".home"), "LC_ALL": "C.UTF-8"})

    def say(self, command):
        print(f"{command}\necho '{MARK}'", file=self.process.stdin, flush=True)
        told = []
        for line in self.process.stdout:
            if line == f"{MARK}\n":
                return "".join(told)
            told.append(line)
        return "".join(told) + "the shell ended\n"


class Trial:
    """What was tried, and what differs."""

    def __init__(self, folder):
        self.shell, self.passed, self.failed, self.programs = Shell(folder), 0, 0, {}

    def write(self, name, text):
        """A program of the page; that of cargo goes where cargo has its own."""
        if name.endswith(".rs"):
            self.programs["main.rs"] = text
        else:
            with open(os.path.join(self.shell.folder, name), "w", encoding="utf-8") as file:
                file.write(text)

    def play(self, text):
        first, *others = re.split(r"^\$ ", text, flags=re.M)
        assert not first, first
        for command, _, wanted in (it.partition("\n") for it in others):
            told = self.shell.say(command)
            self.passed, self.failed = (self.passed + 1, self.failed) if told == wanted else (self.passed, self.failed + 1)
            if told != wanted:
                print(f"FAILED: {command}\nwanted: {wanted}got: {told}", end="")
            if command.startswith("cd ") and self.programs:
                with open(os.path.join(self.shell.folder, command[3:], "src", "main.rs"), "w", encoding="utf-8") as file:
                    file.write(self.programs.pop("main.rs"))


def main():
    release = os.path.abspath(sys.argv[1] if len(sys.argv) > 1 else os.path.join(TOP, "release", "out"))
    with tempfile.TemporaryDirectory() as folder:
        for name in os.listdir(release):
            shutil.copy(os.path.join(release, name), folder)
        trial, taken = Trial(folder), {}
        for heading, name, text in steps(page_of(release)):
            begun = time.monotonic()
            if name:
                trial.write(name, text)
            else:
                trial.play(text)
            taken[heading] = taken.get(heading, 0) + time.monotonic() - begun
        for heading, seconds in taken.items():
            print(f"{heading}: {seconds:.1f} s")
    print(f"{trial.passed} passed, {trial.failed} failed")
    return 1 if trial.failed or not trial.passed else 0


if __name__ == "__main__":
    sys.exit(main())
