"""Prints the states of a saved history, as `ring_tool states` has to, or the lines of its repairs, as `ring_tool report --repairs` adds
them: from FORMATS alone. Words: FILE [--ring R] [--csv | --json | --repairs]. It takes FILE for legal, and replays each ring in plain
Python, a machine at a time. Only the standard library is used, and nothing of this repository."""

import argparse
import json
import statistics

NAMES = "ring event kind seat machine order left number result value old states privileged at rest calm".split()
LISTS = ("states", "at")


def privileged(values):
    return [i for i, value in enumerate(values) if (value == values[-1] if i == 0 else value != values[i - 1])]


def rest(k, values):
    """The weight of the privileged machines, and n for each step of machine 0 until no other has its value; 0 if one is privileged."""
    at = privileged(values)
    if len(at) == 1:
        return 0
    n, others = len(values), set(values[1:])
    same = next((i for i, value in enumerate(values) if value != values[0]), n)
    is_prefix = values[0] not in values[same:]
    lead = 0 if is_prefix else next(steps for steps in range(1, k + 1) if (values[0] + steps) % k not in others)
    return sum(n - i for i in at if i) + n * lead


def events_of(lines):
    for words in lines:
        kind, numbers = words[0], [int(word) for word in words[1:] if word.isdigit()]
        if kind == "p" and words[4] == "g":
            yield dict(zip(("seat", "machine", "order", "number", "result"), numbers), kind="granted")
        elif kind == "p":
            yield dict(zip(("seat", "machine", "order"), numbers), kind="refused")
        elif kind == "m":
            yield dict(zip(("seat", "machine", "order", "left", "number", "result"), numbers), kind="member")
        elif kind == "c":
            yield dict(zip(("seat", "machine", "value", "old"), numbers), kind="corrupted")


def rings_of(text):
    lines = [line.split() for line in text.splitlines()]
    for place, words in enumerate(lines):
        if words[0] == "ring":
            end = next(i for i in range(place, len(lines)) if lines[i][0] == "end")
            yield *map(int, words[1:]), [int(word) for word in lines[place + 1][1:]], list(events_of(lines[place + 2:end]))


def move(k, values, machine):
    values[machine] = (values[0] + 1) % k if machine == 0 else values[machine - 1]


def rows_of(ring, k, start, events):
    values, calm = list(start), 0
    for place, event in enumerate([{"kind": "start"}, *events]):
        if event["kind"] in ("granted", "member"):
            move(k, values, event["machine"])
            calm += 1
        elif event["kind"] == "corrupted":
            values[event["machine"]] = event["value"]
            calm = 0
        at = privileged(values)
        yield {"ring": ring, "event": place, **event, "states": list(values), "privileged": len(at), "at": at,
               "rest": rest(k, values), "calm": calm}


def cell(value, between):
    return between.join(map(str, value)) if isinstance(value, list) else str(value)


def line_of(row, form):
    there = {name: row[name] for name in NAMES if name in row}
    if form == "json":
        return json.dumps(there, separators=(",", ":"))
    if form == "csv":
        return ",".join(cell(row.get(name, ""), " ") for name in NAMES)
    return " ".join(f"{name} {cell(value, ',')}" for name, value in there.items())


def repairs_of(rows):
    """Of each fault whose repair ended, its granted passes, and how many machines it left privileged."""
    for place, row in enumerate(rows):
        passes = 0
        if row["kind"] == "corrupted":
            for later in rows[place:]:
                if later is not row and later["kind"] == "corrupted":
                    break
                passes += later["kind"] in ("granted", "member")
                if later["privileged"] == 1:
                    yield passes, row["privileged"]
                    break


def repairs_line(ring, n, k, rows):
    found = list(repairs_of(rows))
    took = [passes for passes, _ in found]
    numbers = (min(took), statistics.median_low(took), max(took), max(most for _, most in found)) if found else "----"
    faults = sum(row["kind"] == "corrupted" for row in rows)
    return ("repairs ring %d n %d k %d faults %d ended %d least %s median %s greatest %s privileged %s bound %d"
            % (ring, n, k, faults, len(found), *numbers, 3 * n * (n - 1) // 2))


def main():
    words = argparse.ArgumentParser(description=__doc__)
    words.add_argument("file")
    words.add_argument("--ring", type=int)
    for form in ("csv", "json", "repairs"):
        words.add_argument(f"--{form}", dest="form", action="store_const", const=form)
    asked = words.parse_args()
    if asked.form == "csv":
        print(",".join(NAMES))
    with open(asked.file, encoding="ascii") as file:
        rings = list(rings_of(file.read()))
    for ring, n, k, start, events in rings if asked.ring is None else rings[asked.ring:asked.ring + 1]:
        rows = list(rows_of(ring, k, start, events))
        print(*[repairs_line(ring, n, k, rows)] if asked.form == "repairs" else [line_of(row, asked.form) for row in rows], sep="\n")


if __name__ == "__main__":
    main()
