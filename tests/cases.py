#!/usr/bin/env python3
"""cases.py [SECONDS]: plays the rows that are marked with `>`, some of each command, on the program as `rt try` compiles it, with no proof. It
builds once, which takes a minute and a half on a quiet machine, and then takes more than a second for each case. Needs rt. The
last line is `N passed, M failed`."""
import os
import re
import subprocess
import sys
import tempfile
from dataclasses import dataclass

import scripts

TOP = os.path.dirname(scripts.HERE)
ENDED = re.compile(rb"case=(\S+) run=(\w+)(?: status=(\d+))?(.*)")


@dataclass
class Case:
    """A row: its words, its standard input, and what has to come of it: the two outputs with the status between them."""

    row: str
    words: list
    text: bytes
    wanted: bytes


class Files:
    """The files that the cases find where they run, by their names: all cases find the same."""

    def __init__(self):
        self.texts = {}

    def put(self, name, text):
        if self.texts.setdefault(name, text) != text:
            raise ValueError(f"two cases need different files {name!r}")


def found_by(words, made, folders, files):
    """Puts the files that these words name: of those that the script made before, the file itself or all of a folder. An empty folder has the
    file by which it is locked, since a case has no empty one."""
    for word in words:
        inside = [name for name in made if name == word or word in folders and name.startswith(word + b"/")]
        for name in inside:
            files.put(name, made[name])
        if word in folders and not inside:
            files.put(word + b"/lock", b"")


def cases_of(name, files):
    """The cases of a script. The files of its rows are those that its lines make: what a run makes is not known here."""
    lines = scripts.lines_of(name)
    made = {os.fsencode(it): scripts.read(f"{scripts.DATA}/{it}") for it in os.listdir(scripts.DATA)}
    text, folders = b"", set()
    for (verb, rest), printed in zip(lines, scripts.split(scripts.wanted(name), lines)):
        if verb and verb in scripts.TEXT:
            text = text_with(text, verb, rest, made)
            continue
        if verb == b"=":
            made[rest] = text
        elif verb == b"-":
            made.pop(rest, None)
        elif verb == b"/":
            folders.add(rest)
        elif verb == b">":
            words = scripts.words_of(rest)
            found_by(words, made, folders, files)
            # (how much of its input a case left cannot be seen)
            wanted = re.sub(rb"unread \d+\n\Z", b"", printed.removeprefix(verb + rest + b"\n"))
            yield Case(f"{name}: {os.fsdecode(rest)}", words, text, wanted)
        text = b""


def text_with(text, verb, rest, made):
    """The text at hand with what a line adds to it; none where it adds a file that a run made."""
    if text is None or verb == b"+" and made.get(rest) is None:
        return None
    return text + made[rest] if verb == b"+" else scripts.add(text, verb, rest, "")


def write(folder, name, text):
    path = os.path.join(os.fsencode(folder), name)
    os.makedirs(os.path.dirname(path), exist_ok=True)
    with open(path, "wb") as it:
        it.write(text)
    return os.fsdecode(path)


def tried(cases, files, seconds):
    """Runs the cases by `rt try`. Returns its status and both of its outputs."""
    with tempfile.TemporaryDirectory(prefix="cases-") as room:
        data = [f"{os.fsdecode(name)}={write(f'{room}/data', name, text)}" for name, text in files.texts.items()]
        for number, case in enumerate(cases):
            write(f"{room}/cases", b"%03d" % number, case.text)
            write(f"{room}/cases", b"%03d.args" % number, b"".join(word + b"\n" for word in case.words))
        words = ["rt", "try", *(word for it in data for word in ("--data", it)), "--cases", f"{room}/cases"]
        ran = subprocess.run(words, cwd=f"{TOP}/crates/ring_tool", stdin=subprocess.DEVNULL, capture_output=True, timeout=seconds, check=False)
    return ran.returncode, ran.stdout, ran.stderr


def answers(printed, told):
    """What came of each case, by its number: what it printed, its status and its error text, as a script has them."""
    texts, numbers = {}, []
    error = b""
    for line in told.splitlines(keepends=True):
        found = ENDED.match(line)
        if not found:
            error += line
            continue
        numbers.append(found[1])
        texts[found[1]] = (found[3], error, found[0])
        error = b""
    at, outputs = 0, {}
    for number, after in zip(numbers, [*numbers[1:], None]):
        begin = printed.index(b"== %s\n" % number, at) + len(number) + 4
        at = printed.index(b"== %s\n" % after, begin) if after else len(printed)
        outputs[number] = printed[begin:at]
    return {int(it): (outputs[it] + b"status %s\n" % (texts[it][0] or b"?") + texts[it][1], texts[it][2]) for it in numbers}


def main(seconds="900"):
    files = Files()
    cases = [case for name in scripts.names() for case in cases_of(name, files)]
    status, printed, told = tried(cases, files, float(seconds))
    found = answers(printed, told)
    failed = 0
    for number, case in enumerate(cases):
        text, line = found.get(number, (b"it was not run\n", b""))
        if text != case.wanted or b"run=ended" not in line:
            failed += 1
            print(f"failed: {case.row}", "wanted:", case.wanted.decode(errors="backslashreplace"), "came:", text.decode(errors="backslashreplace"), line.decode(), sep="\n")
    if status not in (0, 4, 5, 6) or not found:
        print(told.decode(errors="backslashreplace")[-3000:])
    print(f"{len(cases) - failed} passed, {failed} failed")
    return bool(failed or status)


if __name__ == "__main__":
    sys.exit(main(*sys.argv[1:2]))
