"""What the verdict on an edit rests on, as a sum, and the list of the edits that were seen to be refused, wrong/tried.txt.

A verdict rests on the edit's text, on the sources of its crate, on the kit's logic, and of the crates below on their statements. A
check of a crate reads no body and no proof of those below: a definition is opaque to other crates unless it is marked `abbrev` or
`unfoldable`. So these are left out of the sum, and a change of them has no edit of the crates above tried again."""
import fcntl
import hashlib
import os
import re
import sys

import edits

# Lines `CRATE/EDIT SUM KIND GOAL`: the sum of what it was tried on when it was refused, and what refused it
TRIED = f"{edits.FOLDER}/tried.txt"
# A function whose body others can read: a constant one at compile time, and one whose type is what its body says
IS_READ = re.compile(r"\bconst\b[^(]*\bfn\b|-> (&|Option<|Box<)?impl\b")
# A function that other crates cannot name
IS_HIDDEN = re.compile(r"(const )?fn | *pub\(")
SIGNATURE = re.compile(r"((?:pattern |unfoldable |abbrev |axiom |pub )*)([^\s:]+)(?: \{[^}]*\})? :(?: |$)")
# The marks of a definition whose body others can read
MARKS = {"abbrev", "unfoldable", "pattern", "axiom"}
USE = re.compile(r"^((?:pub |unfoldable |ghost )*use [^;{}\n]*)\{([^{};]*)\};?$", re.MULTILINE)


def logic(rtlib):
    """The sum of the kit's logic: kits with the same one prove the same."""
    with open(f"{rtlib.KIT}/KIT-ID", encoding="utf-8") as it:
        found = re.search(r"logic (\w+)", it.read())
    return found[1] if found else sys.exit("the kit's line names no logic")


def without_bodies(text):
    """Of a file of code what other crates read: no body of a function, no private function at the top, no proof's attribute."""
    if "#[macro_export]" in text:
        return text
    lines, kept, at = text.split("\n"), [], 0
    while at < len(lines):
        if edits.FUNCTION.match(lines[at]):
            begins, ends = edits.body_of(lines, at)
            head = lines[at : begins + 1]
            if not IS_HIDDEN.match(lines[at]):
                kept += lines[at : ends + 1] if IS_READ.search(" ".join(head)) else head
            at = max(begins, ends) + 1
        else:
            kept += [] if lines[at].lstrip().startswith("#[tactic(") else [lines[at]]
            at += 1
    return with_used_names("\n".join(kept))


def without_proofs(text):
    """Of a file of lemmas what other crates read: no body that they cannot unfold, and nothing private that they cannot either."""
    kept, shut, is_left_out, blocks = [], {}, False, [0]
    for line in filter(str.strip, text.split("\n")):
        indent = len(line) - len(line.lstrip(" "))
        if blocks[-1] is None:
            blocks[-1] = indent
        while indent < blocks[-1]:
            blocks.pop()
        if indent == blocks[-1] and not line.lstrip().startswith(("]", ")", "}", "|", "unfolding ")):
            signature = SIGNATURE.match(line.strip())
            marks, name = (signature[1].split(), signature[2]) if signature else ([], line.split()[0])
            if signature:
                shut[name] = not MARKS & {*marks}
                is_left_out = shut[name] and "pub" not in marks
            elif name == "mod":
                is_left_out = True
            else:
                is_left_out = shut.get(name, False)
            blocks += [None] if re.match(r"(pub )?module\b.*\bwhere$", line.strip()) else []
        elif line.lstrip().startswith("unfolding ") and indent == blocks[-1]:
            is_left_out = True
        kept += [] if is_left_out else [line]
    return with_used_names("\n".join(kept))


def with_used_names(text):
    """The text whose lines `use` have the names alone that the rest has: others say nothing of it."""
    rest = USE.sub("", text)

    def used(found):
        names = [it.strip() for it in found[2].split(",")]
        names = [it for it in names if all(part in rest for part in it.split(" as ")[-1].split("◌"))]
        return f"{found[1]}{', '.join(names)}" if names else ""

    return USE.sub(used, text)


def shown_proofs(folder, node="Lib"):
    """The files of lemmas that other crates can name: those of the `pub mod` lines."""
    top = f"{folder}/proofs/{node}.antt"
    if not os.path.isfile(top):
        return
    yield top
    with open(top, encoding="utf-8") as it:
        names = re.findall(r"^pub mod (\S+)", it.read(), re.MULTILINE)
    for name in names:
        yield from shown_proofs(folder, name if node == "Lib" else f"{node}/{name}")


def sum_of_statements(rtlib, crate, known):
    """The sum of what a check of a crate above reads of this one: its clauses, types, definitions and the statements of its lemmas.
    `known` has the sums that were made before."""
    if ("statements", crate.folder) not in known:
        sum = hashlib.sha256(repr(sorted(crate.said.items(), key=repr)).encode())
        shown = {*shown_proofs(crate.folder)}
        for file in rtlib.files_of(crate.folder):
            with open(file, encoding="utf-8") as it:
                text = without_remarks(file, it.read())
            if file.endswith(".rt"):
                text = without_bodies(text)
            elif "/proofs/" in file[len(crate.folder) :]:
                if file not in shown:
                    continue
                text = without_proofs(text)
            sum.update(repr((os.path.relpath(file, crate.folder), text)).encode())
        for dep in crate.deps:
            sum.update(sum_of_statements(rtlib, dep, known).encode())
        known["statements", crate.folder] = sum.hexdigest()
    return known["statements", crate.folder]


def without_remarks(file, text):
    """A file without the lines that are for readers alone."""
    mark = "//" if file.endswith(".rt") else "--"
    return "\n".join(it for it in text.split("\n") if it.strip() and not it.lstrip().startswith(mark))


def sum_of_sources(rtlib, crate, known):
    """The sum of what a check of the crate reads."""
    if ("sources", crate.folder) not in known:
        sum = hashlib.sha256(f"{logic(rtlib)} {sorted(crate.said.items(), key=repr)!r}".encode())
        for file in rtlib.files_of(crate.folder):
            with open(file, encoding="utf-8") as it:
                sum.update(repr((os.path.relpath(file, crate.folder), without_remarks(file, it.read()))).encode())
        for dep in crate.deps:
            sum.update(sum_of_statements(rtlib, dep, known).encode())
        known["sources", crate.folder] = sum.hexdigest()
    return known["sources", crate.folder]


def sum_of(rtlib, edit, known):
    """The sum of all on which the verdict on the edit rests."""
    return hashlib.sha256(f"{sum_of_sources(rtlib, edit.crate, known)} {edit.text()}".encode()).hexdigest()[:32]


def tried():
    """What each edit came to when it was tried last, by its crate and name: the sum, and what refused it."""
    found = {}
    with open(TRIED, encoding="utf-8") as it:
        for line in it:
            if line.strip() and not line.startswith("#"):
                name, sum, *why = line.split()
                found[name] = sum, " ".join(why)
    return found


def note_tried(rows, path=""):
    """Writes these rows, by the crate's and the edit's name, into the list, or into a copy of it at this path; those of other edits stay,
    if there still are such edits. One command at a time does it."""
    path, folder = path or TRIED, os.open(os.path.dirname(TRIED), os.O_RDONLY)
    try:
        fcntl.flock(folder, fcntl.LOCK_EX)
        with open(TRIED, encoding="utf-8") as it:
            head = [line for line in it if line.startswith("#")]
        kept = {**tried(), **rows}
        there = {f"{name}/{edit}" for name in sorted({it.partition("/")[0] for it in kept}) for edit in names_in(name)}
        with open(f"{path}.new", "w", encoding="utf-8") as it:
            it.writelines([*head, *(f"{name} {' '.join(kept[name])}\n" for name in sorted(kept) if name in there)])
        os.replace(f"{path}.new", path)
    finally:
        os.close(folder)


def names_in(crate):
    path = f"{edits.FOLDER}/{crate}.edits"
    if not os.path.isfile(path):
        return []
    with open(path, encoding="utf-8") as it:
        return re.findall(r"^edit: (\S+)", it.read(), re.MULTILINE)


def untried(rtlib, crates):
    """Of each crate, by its name, the edits that have to be tried, since something on which the verdict rests is not as it was."""
    seen, known, found = tried(), {}, {}
    for crate in crates:
        changed = [it for it in edits.read(crate)[0] if seen.get(str(it), ("", ""))[0] != sum_of(rtlib, it, known)]
        if changed:
            found[crate.name] = changed
    return found
