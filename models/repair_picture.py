"""Judges a picture of many repairs (`ring_tool repairs .. --picture FILE`) by docs/FORMATS.md and the numbers of `drawn_repairs.py`. Words:
FILE, and then those of `drawn_repairs.py`. Only the standard library is used, and nothing of this repository but that model."""

import sys
import xml.etree.ElementTree as tree

import drawn_repairs as model

SVG = "{http://www.w3.org/2000/svg}"
COLOURS = {
    "trials": "#8fb0de",
    "bound": "#555",
    "longest": "#6a3d9a",
    "greatest": "#b3261e",
    "p99": "#d55e00",
    "p90": "#e69f00",
    "median": "#111",
    "least": "#0a7d4f",
}
DASHES = {"bound": "30 50", "longest": "120 60"}
CURVES = ("bound", "longest", "greatest", "p99", "p90", "median", "least")


def figures(n, counts):
    bound, longest = model.bounds("repairs", n)
    return {
        "bound": bound,
        "longest": longest,
        "least": min(counts),
        "greatest": max(counts),
        "median": model.quantile(counts, 500),
        "p90": model.quantile(counts, 900),
        "p99": model.quantile(counts, 990),
    }


def box(what, x, y, width, height):
    return ("rect", x, y, width, height, COLOURS[what])


def line(what, start, end):
    return ("path", *start, *end, COLOURS[what], DASHES.get(what))


def number(x, y, value):
    return ("text", x, y, value)


def spread(counts, told):
    """The shapes of one size: bars, and where the trials are from 0 to the bound."""
    least, greatest, bound = told["least"], told["greatest"], told["bound"]
    wide = (greatest - least) // 100 + 1
    bars = [sum(counts[v] for v in range(at, at + wide)) for at in range(least, greatest + 1, wide)]
    left = [700 + 9000 * i // len(bars) for i in range(len(bars) + 1)]
    for i, trials in enumerate(bars):
        tall = 3200 * trials // max(bars)
        yield box("trials", left[i], 4100 - tall, left[i + 1] - left[i], tall)

    def along(value):
        return 700 + 9000 * value // bound

    yield number(1000, 4270, least)
    yield number(9700, 4270, greatest)
    yield number(9700, 860, wide)
    yield number(680, 1000, max(bars))
    yield box("trials", along(least), 4600, max(along(greatest) - along(least), 20), 300)
    for what in ("median", "longest", "bound"):
        yield line(what, (along(told[what]), 4550), (along(told[what]), 4950))
    yield number(9700, 5090, bound)


def level(value):
    """Each doubling is 64 steps higher; between two powers of 2 it is even."""
    power = max(value, 1).bit_length() - 1
    return 64 * power + (64 * max(value, 1) >> power) - 64


def growth(rows):
    """The shapes of more sizes: a curve of each number."""
    for what in CURVES:
        points = [(900 + 7700 * (level(n) - 64) // 576, 5700 - 5000 * level(told[what]) // 1312) for n, told in rows]
        yield from (box(what, x - 25, y - 25, 50, 50) for x, y in points)
        yield from (line(what, *pair) for pair in zip(points, points[1:]))


def drawn(root):
    """The shapes of a picture, as they stand in it."""
    for it in root.find(f".//{SVG}g[@stroke-width='30']"):
        kind = it.tag.removeprefix(SVG)
        if kind == "rect":
            yield (kind, *(int(it.get(name)) for name in ("x", "y", "width", "height")), it.get("fill"))
        elif kind == "path":
            start, end = it.get("d").removeprefix("M").split("L")
            yield (kind, *map(int, start.split()), *map(int, end.split()), it.get("stroke"), it.get("stroke-dasharray"))
        else:
            yield (kind, int(it.get("x")), int(it.get("y")), int(it.text))


def faults(text, asked, sizes, counted):
    """What is wrong with a picture, of these sizes and counts."""
    root = tree.fromstring(text)
    rows = [(n, figures(n, counts)) for (n, _), counts in zip(sizes, counted)]
    if len(rows) == 1:
        wanted = list(spread(counted[0], rows[0][1]))
        words = model.line("repairs", asked, *sizes[0], counted[0])
    else:
        wanted, words = list(growth(rows)), f"daemon {asked.daemon} from {asked.start_name}"
    found = list(drawn(root))
    yield from (f"shape {i}: {a}, and not {b}" for i, (a, b) in enumerate(zip(found, wanted)) if a != b)
    if len(found) != len(wanted):
        yield f"{len(found)} shapes, and not {len(wanted)}"
    if words not in [it.text.strip() for it in root.iter(f"{SVG}text")]:
        yield f"no text is {words}"


def main():
    asked, sizes, _ = model.asked_by(sys.argv[2:])
    with open(sys.argv[1], "rb") as it:
        wrong = list(faults(it.read(), asked, sizes, [model.measured(asked, n, k)[0] for n, k in sizes]))
    print("\n".join(wrong) or "as drawn")
    sys.exit(bool(wrong))


if __name__ == "__main__":
    main()
