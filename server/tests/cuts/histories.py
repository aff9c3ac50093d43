"""What a journal tells, a file or a folder of segments, read by docs/FORMATS.md with the second reader of journals in models/, which
shares no code with the program: the events and surveys of each ring, with all numbers counted from the first segment on."""

import functools
import hashlib
import os
import re
import sys
from dataclasses import dataclass, field

HERE = os.path.dirname(os.path.abspath(__file__))
TOP = os.path.dirname(os.path.dirname(os.path.dirname(HERE)))
sys.path[1:1] = [os.path.dirname(HERE), os.path.join(TOP, "models")]

import journals  # noqa: E402
import small_recover  # noqa: E402


@dataclass
class Base:
    """What came of a ring before a segment: events, grants, the amount in the till, the calm."""

    events: int = 0
    grants: int = 0
    amount: int = 0
    calm: int = 0


@dataclass
class History:
    """What is recovered: of each ring the events, and of each ring and seat the surveys; the remarks of the last segment; what is wrong."""

    events: dict = field(default_factory=dict)
    surveys: dict = field(default_factory=dict)
    remarks: list = field(default_factory=list)
    wrong: list = field(default_factory=list)

    def add(self, saved, bases):
        """Adds the history of a saved text, of which this came before."""
        ring, events = "", []
        for line in saved.splitlines():
            kind, _, rest = line.partition(" ")
            if kind == "ring":
                ring, events = rest.partition(" ")[0], []
                base = bases[int(ring)] if bases else Base()
                self.events.setdefault(ring, [])
            elif kind in ("p", "m", "c"):
                events.append(line)
                self.events[ring].append(event(line, base))
            elif kind == "s":
                self.surveys.setdefault((ring, rest.partition(" ")[0]), []).append(survey(line, base, events))


def event(line, base):
    """An event, with its numbers counted from the first segment on."""
    words = line.split(" ")
    if words[0] == "m" or words[-1] != "n" and words[0] == "p":
        words[-2:] = [str(int(words[-2]) + base.grants), str((int(words[-1]) + base.amount) % (1 << 64))]
    return " ".join(words)


def survey(line, base, events):
    """A survey behind some of these events of its segment, counted so."""
    words = line.split(" ")
    has_fault = any(it.startswith("c") for it in events[:int(words[2])])
    words[2] = str(int(words[2]) + base.events)
    words[5] = str(int(words[5]) + (0 if has_fault else base.calm))
    return " ".join(words)


def head_of(text):
    """The head of a segment: its number, the digest of the one before, a base for each ring, and the rest."""
    head, _, rest = text.partition("ringjournal ")
    lines = head.splitlines()
    words = lines[0].split(" ")
    bases = [Base(*map(int, line.split(" ")[1:])) for line in lines[2:]]
    return int(words[2]), lines[1].removeprefix("behind "), bases, "ringjournal " + rest


@functools.lru_cache(200)
def told_by(text):
    """The saved text that a journal tells; and what is wrong with it, behind the lines that are told."""
    said = small_recover.answer(text.encode("latin-1"))
    saved, _, verdict = said.rstrip("\n").rpartition("\n")
    if verdict.startswith("legal "):
        return saved, ""
    line = re.match(r"line (\d+): ", verdict)
    front = "".join(text.splitlines(keepends=True)[:int(line[1]) - 1]) if line else ""
    return (told_by(front)[0] if front else ""), verdict


def of_text(text, history):
    """Adds what a journal without head tells."""
    saved, wrong = told_by(text)
    history.add(saved, [])
    history.wrong += [wrong] * bool(wrong)
    return history


def read(path):
    with open(path, "rb") as file:
        return file.read()


def recovered(path):
    """What is recovered of a journal: of a file, or of all segments of a folder."""
    if not os.path.isdir(path):
        return of_text(read(path).decode("latin-1"), History())
    history, before, last = History(), "0" * 64, 0
    for name in journals.segments(path):
        data = read(os.path.join(path, name))
        text = data.decode("latin-1")
        try:
            number, behind, bases, rest = head_of(text)
        except (ValueError, IndexError, TypeError):
            history.wrong.append(f"{name}: head")
            break
        if (number, behind) != (last + 1, before):
            history.wrong.append(f"{name}: number or digest")
        before, last = hashlib.sha256(data).hexdigest(), number
        saved, wrong = told_by(journals.without_remarks(rest))
        history.add(saved, bases)
        history.wrong += [f"{name}: {wrong}"] * bool(wrong)
        history.remarks = [line[2:] for line in rest[:rest.rfind("\n") + 1].splitlines() if line.startswith("# ")]
    return history
