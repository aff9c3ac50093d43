"""Prints each clause of a function, trait or type below a folder crates/, one a line, as `crate: item: clause`, sorted.
Word: the folder. Tests are left out. For tools/clauses.sh."""

import os
import re
import sys

ITEM = re.compile(r"^(\s*)(?:pub(?:\(crate\))? )?(?:unsafe )?(?:extern \"C\" )?fn ([a-z_0-9]+)")
HOLDER = re.compile(r"^(?:pub(?:\(crate\))? )?(?:unsafe )?(?:impl|trait|struct|enum)\b.*")
CLAUSE = re.compile(r"^\s+(requires|ensures|ghost (?!use\b)\w+|where\b)")


def clauses_of_item(lines, at, indent):
    """The clauses behind the head of a function, and the line behind its last one."""
    found = []
    while at < len(lines):
        line = lines[at]
        if line in (indent + "{", indent + "}", indent + "{}"):
            return found, at
        if CLAUSE.match(line):
            found.append(line.strip())
        elif found:
            found[-1] += " " + line.strip()
        elif line.endswith((" {", ";", "{}")):
            return found, at
        at += 1
    return found, at


def clauses_of(path):
    with open(path, encoding="utf-8") as file:
        lines = [it for it in file.read().split("\n") if not it.strip().startswith("//")]
    holder, at = "", 0
    while at < len(lines):
        line = lines[at]
        if HOLDER.match(line):
            holder = re.sub(r"\s*\{?\s*$", "", line)
        item = ITEM.match(line)
        if item:
            name = f"{holder}::{item[2]}" if item[1] else item[2]
            found, at = clauses_of_item(lines, at, item[1])
            for clause in found or ["no clause"]:
                yield name, clause
        elif CLAUSE.match(line) and line.strip().startswith("ghost"):
            text = line.strip()
            while text.count("{") > text.count("}") and at + 1 < len(lines):
                at += 1
                text += " " + lines[at].strip()
            yield holder, text
        at += 1


def main(top):
    rows = set()
    for crate in sorted(os.listdir(top)):
        for folder, _, files in os.walk(f"{top}/{crate}/src"):
            if "/tests" in folder or crate.endswith("_tests"):
                continue
            for name in files:
                if name.endswith(".rt") and name != "tests.rt":
                    rows |= {f"{crate}: {item}: {re.sub(r'  +', ' ', clause)}" for item, clause in clauses_of(f"{folder}/{name}")}
    print("\n".join(sorted(rows)))


if __name__ == "__main__":
    main(sys.argv[1])
