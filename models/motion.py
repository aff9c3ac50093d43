"""Draws a ring of a saved history in motion, as `history_motion` has to, by Dijkstra's rule and the form of saved histories alone; and
compares a picture with that. Words: FILE RING FROM MOST [PICTURE]. It takes FILE for legal. With PICTURE it says whether this is the one that it
draws; else it prints it. Of `states.py` it has the ring from event to event, and which of its machines are privileged."""

import sys
import xml.dom.minidom

from states import move, privileged, rings_of


def shown_states(k, start, events):
    """The values after each event, but inside a group's block those before it: a group moves at once."""
    values = list(start)
    states = [tuple(values)]
    for event in events:
        if event["kind"] in ("granted", "member"):
            move(k, values, event["machine"])
        elif event["kind"] == "corrupted":
            values[event["machine"]] = event["value"]
        states.append(states[-1] if event.get("left") else tuple(values))
    return states


def overlay(first, attribute, flags):
    return (f'{first} {attribute}="{flags[0]}"><animate attributeName="{attribute}" calcMode="discrete" dur="{400 * len(flags)}ms"'
            f' repeatCount="indefinite" values="{";".join(map(str, flags))}"/></circle>\n')


def machine(n, i, filled, hit):
    angle = 36000 * i // n
    return (f'<g transform="rotate({angle}e-2) translate(0 -200)">\n<circle r="17" fill="#fff" stroke="#555" stroke-width="2"/>\n'
            + overlay('<circle r="17" fill="#15489f"', "opacity", filled)
            + overlay('<circle r="24" fill="none" stroke="#e69f00" stroke-width="6"', "opacity", hit)
            + f'<text y="-34" transform="rotate(-{angle}e-2 0 -40)" text-anchor="middle">{i}</text>\n</g>\n')


def draw(index, n, k, start, events, frm, most):
    count = min(most, len(events) - frm)
    states = shown_states(k, start, events)[frm:frm + count + 1]
    hits = [None] + [it["machine"] if it["kind"] == "corrupted" else None for it in events[frm:frm + count]]
    time = 400 * (count + 1)
    text = ('<svg xmlns="http://www.w3.org/2000/svg" viewBox="0 0 1000 680" font-family="sans-serif" font-size="15">\n'
            '<rect width="1000" height="680" rx="8" fill="#fff"/>\n'
            f'<text x="70" y="36" font-size="22">ring {index}: n {n}, K {k}</text>\n'
            f'<text x="70" y="62">events {frm} to {frm + count} of {len(events)}</text>\n'
            '<g transform="translate(500 320)">\n<circle r="200" fill="none" stroke="#ccc" stroke-width="2"/>\n')
    for i in range(n):
        text += machine(n, i, [int(i in privileged(it)) for it in states], [int(it == i) for it in hits])
    return text + (
        '</g>\n<rect x="70" y="590" width="860" height="8" fill="#ddd"/>\n<rect x="70" y="590" width="0" height="8" fill="#555">'
        f'<animate attributeName="width" dur="{time}ms" repeatCount="indefinite" from="0" to="860"/></rect>\n'
        f'<text x="70" y="618">{frm}</text>\n<text x="500" y="618" text-anchor="middle">events</text>\n'
        f'<text x="930" y="618" text-anchor="end">{frm + count}</text>\n'
        '<circle cx="78" cy="648" r="8" fill="#15489f"/>\n<text x="94" y="653">privileged</text>\n'
        '<circle cx="218" cy="648" r="8" fill="none" stroke="#e69f00" stroke-width="4"/>\n<text x="236" y="653">corruption</text>\n'
        '<text x="350" y="653">each event takes 0.4 s; then it begins anew</text>\n</svg>\n')


def main():
    path, place, frm, most = sys.argv[1], *map(int, sys.argv[2:5])
    with open(path, encoding="ascii") as file:
        drawn = draw(*list(rings_of(file.read()))[place], frm, most)
    xml.dom.minidom.parseString(drawn)
    if len(sys.argv) == 5:
        print(end=drawn)
    elif open(sys.argv[5], encoding="ascii").read() != drawn:
        sys.exit(f"{sys.argv[5]}: drawn otherwise")


if __name__ == "__main__":
    main()
