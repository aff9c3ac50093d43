#!/usr/bin/env python3
"""Draws the pictures of the tests and `docs/picture.svg` anew, from the ring's rules alone, and compares them with the bytes
that the script of the program expects and that stand there; each has to be well-formed XML. At the top of the repository:
python3 models/picture.py [FOLDER]; with a folder, it writes them there.
`python3 models/picture.py FILE PICTURE RING FROM EVENTS` draws one of a saved history, and compares it with the file PICTURE."""
import sys, xml.dom.minidom

BLUE, BLACK, ORANGE, GREEN, GREY = "#15489f", "#111", "#e69f00", "#0a7d4f", "#888"


def priv(v, i):
    return v[-1] == v[0] if i == 0 else v[i - 1] != v[i]


def rest(v, k):
    n = len(v)
    if sum(priv(v, i) for i in range(n)) == 1:
        return 0
    w = sum(n - i for i in range(1, n) if priv(v, i))
    held = [i for i in range(n) if v[i] == v[0]]
    lead = 0 if held == list(range(len(held))) else next(j for j in range(1, k + 1) if (v[0] + j) % k not in v[1:])
    return w + n * lead


def replay(k, start, events):
    """The values and the calm that are shown at each place, and whether each event is a pass that was granted. An event is
    ("p", machine), privileged or not, ("m", machine, left), a group's member, or ("c", machine, value). Inside a group's
    block its beginning is shown, since the group moves at once."""
    values, calm = list(start), 0
    places, passed = [(values, calm)], []
    for event in events:
        i, values = event[1], list(values)
        passed.append(event[0] != "c" and priv(values, i))
        if event[0] == "c":
            values[i], calm = event[2], 0
        elif passed[-1]:
            values[i] = (values[0] + 1) % k if i == 0 else values[i - 1]
            calm += 1
        places.append(places[-1] if event[0] == "m" and event[2] > 0 else (values, calm))
    return places, passed


def stretches(columns):
    """The runs of the columns, each up to the one behind it."""
    runs = []
    for c in columns:
        if runs and runs[-1][1] == c:
            runs[-1][1] = c + 1
        else:
            runs.append([c, c + 1])
    return runs


def draw(index, k, start, events, frm, count, surveys=0):
    n, columns, bound = len(start), count + 1, 3 * len(start) * (len(start) - 1) // 2
    places, passed = replay(k, start, events)
    at = lambda c: places[min(frm + c, len(events))]
    granted = sum(passed)
    corrupted = sum(e[0] == "c" for e in events)
    highest = max(rest(at(c)[0], k) for c in range(columns))
    height = highest if 0 < highest < bound // 4 else bound
    # in hundredths of a unit of the page: a column's left end and its middle, a machine's row, and a number over the lower edge
    x = lambda c: 90000 * c // columns
    middle = lambda c: 45000 * (2 * c + 1) // columns
    y = lambda i: 30000 * i // n
    up = lambda number: 16000 * min(number, 2 * height) // height
    s = f'''<svg xmlns="http://www.w3.org/2000/svg" viewBox="0 0 1000 680" font-family="sans-serif" font-size="15">
<rect width="1000" height="680" rx="8" fill="#fff"/>
<text x="70" y="36" font-size="22">ring {index}: n {n}, K {k}</text>
<text x="70" y="62">events {frm} to {frm + count} of {len(events)}, granted {granted}, corrupted {corrupted}, surveys {surveys}</text>
<path d="M70 380v5M295 380v5M520 380v5M745 380v5M970 380v5" stroke="#555"/>
<text x="24" y="230" text-anchor="middle" transform="rotate(-90 24 230)">machine</text>
<text x="62" y="94" text-anchor="end">0</text>
<text x="62" y="380" text-anchor="end">{n - 1}</text>
<text x="70" y="402">{frm}</text>
<text x="520" y="402" text-anchor="middle">granted passes and other events</text>
<text x="970" y="402" text-anchor="end">{frm + count}</text>
<text x="62" y="436" text-anchor="end">{height}</text>
<text x="62" y="590" text-anchor="end">0</text>
<rect x="70" y="80" width="900" height="300" fill="#f3f3f3"/>
<svg x="70" y="80" width="900" height="300" viewBox="0 0 90000 30000" fill="{BLUE}" stroke="{BLUE}" stroke-width="100">
'''
    for i in range(n):
        for begin, end in stretches([c for c in range(columns) if priv(at(c)[0], i)]):
            s += f'<rect x="{x(begin)}" y="{y(i)}" width="{x(end) - x(begin)}" height="{22500 // n}"/>\n'
    drawn = [(c + 1, frm + c) for c in range(count) if frm + c < len(events)]
    s += f'<path stroke="{GREY}" stroke-width="150" stroke-linecap="square" d="'
    s += "".join(
        f"M{x(c)} {y(events[p][1]) + 7500 // n}v{7500 // n}" for c, p in drawn if events[p][0] == "p" and not passed[p]
    )
    s += f'"/>\n<path stroke="{ORANGE}" stroke-width="500" stroke-linecap="round" d="'
    s += "".join(f"M{x(c)} {y(events[p][1])}v{22500 // n}" for c, p in drawn if events[p][0] == "c")
    s += f'''"/>
</svg>
<rect x="70" y="430" width="900" height="160" fill="#f3f3f3"/>
<text x="970" y="424" text-anchor="end">bound {bound}</text>
<svg x="70" y="430" width="900" height="160" viewBox="0 0 90000 16000" fill="none">
<g transform="translate(0 16000) scale(1 -1)">
<path d="M0 {up(bound)}h90000" stroke="#555" stroke-width="150" stroke-dasharray="200 300"/>
<polyline stroke="{BLACK}" stroke-width="250" points="'''
    s += "".join(f"{middle(c)},{up(rest(at(c)[0], k))} " for c in range(columns))
    s += f'"/>\n<polyline stroke="{GREEN}" stroke-width="150" stroke-dasharray="500 300" points="'
    s += "".join(f"{middle(c)},{up(at(c)[1])} " for c in range(columns))
    return s + f'''"/>
</g>
</svg>
<g font-size="14">
<rect x="70" y="608" width="16" height="10" fill="{BLUE}"/>
<text x="92" y="618">privileged</text>
<path d="M200 606v14" stroke="{ORANGE}" stroke-width="5" stroke-linecap="round"/>
<text x="212" y="618">corruption</text>
<path d="M322 610v6" stroke="{GREY}" stroke-width="1.5" stroke-linecap="square"/>
<text x="332" y="618">refused pass</text>
<path d="M456 613h24" stroke="{BLACK}" stroke-width="2.5"/>
<text x="488" y="618">rest</text>
<path d="M556 613h24" stroke="{GREEN}" stroke-width="1.5" stroke-dasharray="5 3"/>
<text x="588" y="618">calm, cut off at the top</text>
<path d="M776 613h24" stroke="#555" stroke-width="1.5" stroke-dasharray="2 3"/>
<text x="808" y="618">bound</text>
<text x="70" y="644">rest: at most so many granted passes are left until one machine alone is privileged</text>
<text x="70" y="664">calm: so many passes were granted since the last corruption, or since the start</text>
</g>
</svg>
'''


def saved_ring(path, place):
    """The ring at this place of a saved history: its place, K, start, events, and how many surveys."""
    found, events, surveys = None, [], 0
    for line in open(path):
        words = line.split()
        if words[0] == "ring":
            if found:
                break
            if int(words[1]) == place:
                found = [place, int(words[3])]
        elif found and words[0] == "start":
            found.append([int(w) for w in words[1:]])
        elif found and words[0] == "p":
            events.append(("p", int(words[2])))
        elif found and words[0] == "m":
            events.append(("m", int(words[2]), int(words[4])))
        elif found and words[0] == "c":
            events.append(("c", int(words[2]), int(words[3])))
        elif found and words[0] == "s":
            surveys += 1
    return (*found, events, surveys)


def compare_drawn(path, picture, place, frm, most):
    index, k, start, events, surveys = saved_ring(path, place)
    text = open(picture).read()
    xml.dom.minidom.parseString(text)
    count = min(len(events) - frm, most)
    if text != draw(index, k, start, events, frm, count, surveys):
        sys.exit(f"{picture}: drawn otherwise")
    print(f"{picture}: as drawn anew, well-formed, {len(text)} bytes, {len(text) // max(count, 1)} an event")


def passes(*machines):
    return [("p", machine) for machine in machines]


def group(*machines):
    return [("m", machine, len(machines) - turn) for turn, machine in enumerate(machines, 1)]


SCRIPT = "tests/rows/picture.out"
PICTURES = {
    "first": draw(0, 3, [0, 2, 0], passes(0, 0, 2), 0, 3),
    "repair": draw(1, 4, [0, 2, 1, 0], passes(3, 2, 3, 1, 2, 3, 0, 1, 2, 3, 0, 1), 0, 12),
    "corrupted": draw(2, 3, [0, 0, 0], passes(0) + [("c", 2, 2)] + passes(0, 2, 1), 1, 3),
    "grouped": draw(3, 4, [0, 2, 1, 0], group(1, 0, 3) + passes(2, 2), 1, 4),
    "drawn": draw(0, 3, [0, 2, 0], passes(0, 0, 2), 0, 3, 1),
    "last": draw(0, 3, [0, 2, 0], passes(0, 0, 2), 3, 0, 1),
    "part": draw(1, 2, [0, 0], passes(0) + [("c", 1, 1)] + passes(0), 1, 1),
}


def main():
    if len(sys.argv) == 6:
        compare_drawn(sys.argv[1], sys.argv[2], *map(int, sys.argv[3:]))
        return
    script = open(SCRIPT).read()
    for name, text in PICTURES.items():
        xml.dom.minidom.parseString(text)
        if len(sys.argv) > 1:
            open(f"{sys.argv[1]}/{name}.svg", "w").write(text)
        if text not in script:
            sys.exit(f"{name}: the script has another picture")
        print(f"{name}: as drawn anew, well-formed")
    compare_drawn("examples/repair.txt", "docs/picture.svg", 0, 0, 2000)


if __name__ == "__main__":
    main()
