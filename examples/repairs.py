"""Plots what a ring did: how many machines were privileged and how high the rest was, after each event, with a line for each fault.
It reads what `ring_tool states FILE --csv` prints, and prints what each repair took:

    ring_tool states history.txt --csv | python3 repairs.py RING PLOT.svg"""
import csv
import sys

WIDTH, HEIGHT, EDGE = 900, 260, 40


def rows_of(lines, ring):
    """The rows of one ring."""
    return [row for row in csv.DictReader(lines) if int(row["ring"]) == ring]


def repairs(rows):
    """Of each fault: after which event it was, and how many granted passes it took until one machine was privileged, if that came
    before the next fault."""
    fault, passes = None, 0
    for row in rows:
        if row["kind"] == "corrupted":
            if fault is not None:
                yield fault, None
            fault, passes = int(row["event"]), 0
        if fault is not None:
            passes += row["kind"] in ("granted", "member")
            if row["privileged"] == "1":
                yield fault, passes
                fault = None
    if fault is not None:
        yield fault, None


def curve(numbers, colour, name, place):
    """A curve with its greatest number at the top, and its name."""
    most, step = max(1, *numbers), (WIDTH - 2 * EDGE) / max(1, len(numbers) - 1)
    points = " ".join(f"{EDGE + i * step:.1f},{HEIGHT - EDGE - number * (HEIGHT - 2 * EDGE) / most:.1f}" for i, number in enumerate(numbers))
    return (f'<polyline points="{points}" fill="none" stroke="{colour}" stroke-width="2"/>'
            f'<text x="{EDGE + place}" y="24" fill="{colour}">{name}, at most {most}</text>')


def plot(rows):
    """The picture, as the text of an SVG."""
    step = (WIDTH - 2 * EDGE) / max(1, len(rows) - 1)
    faults = "".join(f'<path d="M{EDGE + i * step:.1f} {EDGE}V{HEIGHT - EDGE}" stroke="#e69f00" stroke-width="3"/>'
                     for i, row in enumerate(rows) if row["kind"] == "corrupted")
    curves = [curve([int(row[name]) for row in rows], colour, name, place)
              for name, colour, place in (("rest", "#111", 0), ("privileged", "#15489f", 260))]
    return (f'<svg xmlns="http://www.w3.org/2000/svg" viewBox="0 0 {WIDTH} {HEIGHT}" font-family="sans-serif" font-size="15">'
            f'<rect width="{WIDTH}" height="{HEIGHT}" fill="#fff"/>{faults}{"".join(curves)}'
            f'<text x="{WIDTH / 2}" y="{HEIGHT - 12}" text-anchor="middle">{len(rows) - 1} events</text></svg>\n')


if __name__ == "__main__":
    found = rows_of(sys.stdin, int(sys.argv[1]))
    for event, took in repairs(found):
        print(f"fault at event {event}:", "no end" if took is None else f"{took} passes")
    with open(sys.argv[2], "w", encoding="utf-8") as file:
        file.write(plot(found))
