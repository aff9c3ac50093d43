"""The calls that an engine's journal tells, read by docs/FORMATS.md: a small reader of a folder of segments.

Each segment has a head, a history, and the calls after it. An engine that starts again writes the last segment anew, with the calls
that it found there as the history; so both parts are read."""

import os


def segments(folder):
    """The names of its files, in order."""
    return sorted(name for name in os.listdir(folder) if name.endswith(".ring"))


def texts(folder):
    """The text of each segment."""
    for name in segments(folder):
        with open(os.path.join(folder, name), encoding="ascii") as file:
            yield file.read()


def without_remarks(text):
    """A segment without its remarks: lines that begin with #, of which a last one may be cut off."""
    return "".join(line for line in text.splitlines(keepends=True) if not line.startswith("#"))


def calls(folder):
    """The calls as lines `RING p ..`, `RING s ..`, `RING c ..`: those of a ring in their order, with the numbers of grants counted
    from the first segment on."""
    return [call for text in texts(folder) for call in calls_of(text)]


def calls_of(text):
    """The calls of a segment."""
    lines = without_remarks(text).split("\n")[:-1]
    done = next(i for i, line in enumerate(lines) if line.startswith("done "))
    grants = [int(line.split()[2]) for line in lines[:done] if line.startswith("base ")]
    found = list(history(lines[:done])) + lines[done + 1:]
    return [counted(line, grants) for line in found]


def listed(folder):
    """The names of the list of locks, in the order of their rings; `*` is none."""
    with open(os.path.join(folder, "locks"), encoding="ascii") as file:
        return [name for name in (line.split()[0] for line in file) if name != "*"]


def holds(folder):
    """What the journal tells of holds, by the names of their locks: `(True, NAME, TOKEN, LABEL)` for a grant, and for the end of a hold
    `(False, NAME)`. Rings behind those of the list have the names that remarks give them."""
    names = listed(folder)
    return [it for text in texts(folder) for it in holds_of(text, names)]


def holds_of(text, listed_names):
    """The same of a segment."""
    lines = text.split("\n")[:-1]
    done = next(i for i, line in enumerate(lines) if line.startswith("done "))
    bases = [int(line.split()[2]) for line in lines[:done] if line.startswith("base ")]
    # of a ring its name, and the numbers with which it got that: its own last grant's, and that of all grants
    bound = {ring: (name, 0, 0) for ring, name in enumerate(listed_names)}
    for line in [*history(lines[:done]), *lines[done + 1:]]:
        words = line.split(" ")
        if words[:2] == ["#", "name"]:
            bound[int(words[2])] = words[5], int(words[3]), int(words[4])
        elif words[0] == "#" or words[1] not in "ps":
            continue
        elif words[1] == "p" and words[2] == "0":
            name, before, floor = bound[int(words[0])]
            yield True, name, floor + int(words[6]) + bases[int(words[0])] - before, int(words[4])
        elif words[1] == "s" and words[2] in "12":
            yield False, bound[int(words[0])][0]


def history(lines):
    """The calls of the history that a segment begins with: a survey is put where it was made."""
    ring, events, surveys = None, [], []
    for line in [*lines, "ring"]:
        kind = line.split(" ")[0]
        if kind == "ring":
            surveys.sort(key=lambda survey: int(survey.split(" ")[2]))
            for at in range(len(events) + 1):
                while surveys and int(surveys[0].split(" ")[2]) == at:
                    yield f"{ring} {surveys.pop(0)}"
                if at < len(events):
                    yield f"{ring} {events[at]}"
            ring, events, surveys = line.partition(" ")[2].split(" ")[0], [], []
        elif kind in ("p", "c"):
            events.append(line)
        elif kind == "s":
            surveys.append(line)


def counted(line, grants):
    """A grant has its number counted by itself in each segment."""
    words = line.split(" ")
    if words[1] == "p" and words[5] == "g":
        words[6] = str(int(words[6]) + grants[int(words[0])])
    return " ".join(words)
