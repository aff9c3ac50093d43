"""The wrong bodies of each crate, as wrong/CRATE.edits has them: edits of its text, which the prover has to refuse.

An edit is some lines, with an empty line before the next edit:

    edit: NAME
    promise: what it breaks
    file: src/FILE.rt
    old: a text of one line, or a part of one, that stands once in the file
    new: what stands there instead

There may be further pairs of `old:` and `new:`, and further files. A line that begins with # is for readers."""
import os
import re
from itertools import accumulate

TOP = os.path.dirname(os.path.dirname(os.path.realpath(__file__)))
FOLDER = f"{TOP}/wrong"
FUNCTION = re.compile(r"( *)(?:pub(?:\([^)]*\))? )?(?:const )?fn (\w+)")


class Edit:
    """A wrong body: its name, the promise that it breaks, and triples of a file, the text there and the text instead."""

    def __init__(self, crate, name):
        self.crate, self.name, self.promise, self.pairs = crate, name, "", []

    def text(self):
        """All that the edit says of the crate's text."""
        return repr(self.pairs)

    def __str__(self):
        return f"{self.crate.name}/{self.name}"


def path_of(crate):
    return f"{FOLDER}/{crate.name}.edits"


def read(crate):
    """The edits of a crate, and what is wrong with their file."""
    if not os.path.isfile(path_of(crate)):
        return [], []
    with open(path_of(crate), encoding="utf-8") as it:
        edits, faults = parsed(crate, it.read())
    names = [it.name for it in edits]
    faults += [f"{it} is there twice" for it in sorted(set(names)) if names.count(it) > 1]
    faults += [f"{it.name} names no promise" for it in edits if not it.promise]
    faults += [f"{it.name} has no pair of texts" for it in edits if not it.pairs]
    return edits, faults


def parsed(crate, text):
    edits, faults, file, old = [], [], "", None
    for number, line in enumerate(text.split("\n"), 1):
        word, _, rest = line.partition(":")
        rest = rest.removeprefix(" ")
        edit = edits[-1] if edits else None
        if word == "edit":
            edits.append(Edit(crate, rest.strip()))
            file, old = "", None
        elif edit and word == "promise":
            edit.promise = rest.strip()
        elif edit and word == "file":
            file = rest.strip()
        elif edit and word == "old" and file and old is None:
            old = rest
        elif edit and word == "new" and old is not None:
            edit.pairs.append((file, old, rest))
            old = None
        elif line and not line.startswith("#"):
            faults.append(f"line {number} cannot be read: {line[:60]}")
    return edits, faults


def text_of(crate, file, texts):
    """The text of a file as these edits left it."""
    if file not in texts:
        with open(f"{crate.folder}/{file}", encoding="utf-8") as it:
            texts[file] = it.read()
    return texts[file]


def apply(edit, texts):
    """Puts an edit into these texts. Returns why it cannot be applied, and the places that it changes: of a body the file, the
    function and its type, of anything else none."""
    places = set()
    for file, old, new in edit.pairs:
        if os.path.normpath(file) != file or not file.startswith(("src/", "specs/", "proofs/")):
            return f"{file} is no file below src/, specs/ or proofs/", places
        try:
            text = text_of(edit.crate, file, texts)
        except OSError:
            return f"there is no file {file}", places
        if not old.strip() or text.count(old) != 1:
            return f"a text is in {file} {text.count(old) if old else 0} times, and not once", places
        if old == new:
            return "it changes nothing", places
        at = text.index(old)
        inside = file.endswith(".rt") and body_at(text, at + len(old) - len(old.lstrip()))
        places.add((file, *inside) if inside else None)
        texts[file] = text[:at] + new + text[at + len(old) :]
    return "", places


def place_of(edit):
    """The one function whose body the edit changes; none where it changes something else, or more."""
    _, places = apply(edit, {})
    return places.pop() if len(places) == 1 else None


def body_at(text, at):
    """The name of the function in whose body this place is, and of the type that it belongs to; none outside bodies."""
    lines, line = text.split("\n"), text.count("\n", 0, at)
    for first in range(line, -1, -1):
        if FUNCTION.match(lines[first]):
            begins, ends = body_of(lines, first)
            if not begins < line < ends:
                return None
            found = FUNCTION.match(lines[first])
            return found[2], owner_of(lines, first) if found[1] else ""
    return None


def body_of(lines, first):
    """The lines of the braces around the body of the function that begins in this line, by the layout that the gate asks for."""
    indent = FUNCTION.match(lines[first])[1]
    begins = next((i for i in range(first, len(lines)) if re.match(rf"{indent}\S", lines[i]) and lines[i].endswith("{")), first)
    ends = next((i for i in range(begins + 1, len(lines)) if lines[i].startswith(f"{indent}}}")), begins)
    return begins, ends


def owner_of(lines, first):
    """The type of an impl, with the trait behind it where it is one of a trait, and in brackets the types that the trait is of."""
    head = next((lines[i] for i in range(first, -1, -1) if lines[i].startswith("impl")), "impl")
    text = head.removeprefix("impl").partition(" where")[0].rstrip("{ ")
    if text.startswith("<"):
        depths = list(accumulate((it == "<") - (it == ">") for it in text))
        text = text[depths.index(0) + 1 :]
    trait, is_of_trait, kind = text.strip().partition(" for ")
    kind = name_of(kind or trait)
    own = kind[:1].upper() + kind[1:]
    if not is_of_trait:
        return own
    inner = trait.partition("<")[2].rpartition(">")[0]
    while re.search(r"<[^<>]*>", inner):
        inner = re.sub(r"<[^<>]*>", "", inner)
    types = "".join(name_of(it) for it in inner.split(",") if it.strip() and not it.strip().startswith("'"))
    return f"{own}{name_of(trait)}" + (f"<{types}>" if types else "")


def name_of(text):
    """The name of a type or a trait, without its path and what it is of."""
    found = re.match(r"[&\s]*(?:mut )?(?:\w+::)*(\w+)", text)
    return found[1] if found else ""


def groups_of(edits, most):
    """Joins edits of different functions, so that each can be applied to what the others leave. Alone are those of no one function."""
    groups, alone = [], []
    for edit in edits:
        place = place_of(edit)
        if place is None:
            alone.append([edit])
            continue
        for joined, places, texts in groups:
            changed = dict(texts)
            if len(joined) < most and place not in places and apply(edit, changed) == ("", {place}):
                joined.append(edit)
                places.add(place)
                texts.update(changed)
                break
        else:
            texts = {}
            apply(edit, texts)
            groups.append(([edit], {place}, texts))
    return [joined for joined, _, _ in groups] + alone
