#!/usr/bin/env python3
"""wrong_bodies_table.py [CRATE ..]: prints for each promise its wrong bodies, as a page: the edits of wrong/CRATE.edits, with what
refused each by wrong/tried.txt, and the twins in crates/wrong_*, whose promise is what their comment says before the colon. The
status is 1 where a twin names no promise. Needs python3."""
import os
import re
import sys

sys.dont_write_bytecode = True
sys.path.insert(0, os.path.dirname(os.path.realpath(__file__)))

import edit_sums
import edits

TWIN = re.compile(r"((?:^ *///.*\n)+)(?:^ *#\[.*\]\n)*^ *pub fn (\w+)", re.MULTILINE)


class Crate:
    """A crate as far as its name says it."""

    def __init__(self, name):
        self.name, self.folder = name, f"{edits.TOP}/crates/{name}"


def crates_in_order():
    """The names in crates.txt, lowest first."""
    with open(f"{edits.TOP}/crates.txt", encoding="utf-8") as file:
        lines = [line.partition("#")[0].partition(":") for line in file]
    return [head.split()[0] for head, colon, _ in lines if colon]


def edits_of(crate, seen):
    """For each promise its edits, each with what refused it."""
    found = {}
    for edit in edits.read(Crate(crate))[0]:
        kind, _, goals = seen.get(str(edit), ("", ""))[1].partition(" ")
        why = f"{kind} {' '.join(f'`{it}`' for it in goals.split())}".strip() or "not tried yet"
        found.setdefault(edit.promise, []).append((edit.name, why))
    return found


def twins_of(crate):
    """For each promise its twins, each with what is wrong in it."""
    found, folder = {}, f"{edits.TOP}/crates/{crate}/src"
    for file in sorted(os.listdir(folder)):
        with open(f"{folder}/{file}", encoding="utf-8") as it:
            pairs = TWIN.findall(it.read())
        for doc, name in pairs:
            said = " ".join(line.strip().removeprefix("///").strip() for line in doc.strip().split("\n"))
            promise, _, wrong = said.partition(": ")
            found.setdefault(promise, []).append((f"{file.removesuffix('.rt')}::{name}", wrong))
    return found


def rows(bodies):
    for promise, its in bodies.items():
        first = promise
        for name, said in its:
            yield f"| {first.replace('|', '/')} | `{name}` | {said.replace('|', '/')} |"
            first = ""


def main(*names):
    seen, lacking = edit_sums.tried(), 0
    print("# Wrong bodies of each promise")
    for crate in crates_in_order():
        is_of_twins = crate.startswith("wrong_")
        bodies = {} if names and crate not in names else twins_of(crate) if is_of_twins else edits_of(crate, seen)
        if bodies:
            print(f"\n## `{crate}`\n\n| Promise | Wrong body | {'What is wrong in it' if is_of_twins else 'Refused by'} |\n|---|---|---|")
            print(*rows(bodies), sep="\n")
            lacking += sum(not said for its in bodies.values() for _, said in its)
    return bool(lacking)


if __name__ == "__main__":
    sys.exit(main(*sys.argv[1:]))
