"""A second reader of journals, small and slow, written from docs/FORMATS.md alone, on top of `small_checker.py`: it shares no
code with the program. `answer` gives what `ring_tool recover FILE -` prints, or its refusal. With the word `cuts` or `bytes`
before FILE it prints what the rows `<recover|-|-` and `^recover|-|-` of `tests/rows` have to print of it."""

import sys

from small_checker import LINES, NotLegal, answer as check, is_line, lines_of

FIRST = "ringjournal 1"

# the kinds of lines that are a call's, behind the ring's number; a text of the first version has no members
CALLS = {"ringfarm 1": ["granted", "refused", "corrupted", "survey"], "ringfarm 2": ["granted", "refused", "member", "corrupted", "survey"]}

# the bytes that a row `^` puts in the place of each byte
OTHERS = b"\n\r 019g\xff"


def split(text):
    """The lines of the saved text that the journal begins with, and those of its calls; what has no end is dropped."""
    *whole, rest = text.split("\n")
    if not whole:
        raise NotLegal("text is truncated" if FIRST.startswith(rest) else "line 1: syntax")
    if whole[0] != FIRST:
        raise NotLegal("line 1: syntax")
    ends = next((i for i, line in enumerate(whole) if line.startswith("done ")), None)
    began = whole[1:] if ends is None else whole[1:ends + 1]
    try:
        lines_of("".join(line + "\n" for line in began) + (rest if ends is None else ""))
    except NotLegal as refusal:
        raise NotLegal(later(str(refusal)))
    return began, whole[ends + 1:]


def later(refusal):
    """A refusal of the saved text, with the number that its line has in the journal."""
    words = refusal.split(" ")
    return f"line {int(words[1][:-1]) + 1}: {words[2]}" if words[0] == "line" else refusal


def call_of(line, version, rings):
    """The ring and the line of a call; None if it is no call's."""
    ring, _, said = line.partition(" ")
    is_ring = ring == "0" or (ring.isascii() and ring.isdigit() and ring[0] != "0" and len(ring) <= 10)
    if is_ring and int(ring) < rings and any(is_line(kind, said.split(" "), 0) for kind in CALLS[version]):
        return int(ring), said
    return None


def is_open(call):
    return call[1].startswith("m ") and call[1].split(" ")[4] != "0"


def told(began, calls):
    """The text of the history that a saved text and the calls behind it tell."""
    calls = list(calls)
    while calls and is_open(calls[-1]):
        calls.pop()
    lines, ring = [began[0]], -1
    for line in began[1:]:
        word = line.split(" ")[0]
        if word in ("ring", "done") and ring >= 0:
            lines += surveys_of(surveys, calls, ring)
        if word == "ring":
            ring, events, surveys = ring + 1, 0, []
        if word in ("p", "m", "c"):
            events += 1
        if word == "s":
            surveys.append(line)
            continue
        if word == "end":
            mine = [said for it, said in calls if it == ring and not said.startswith("s ")]
            lines += mine
            line = f"end {events + len(mine)}" if mine else line
        lines.append(line)
    return "".join(line + "\n" for line in lines)


def surveys_of(surveys, calls, ring):
    """A ring's surveys, seat by seat, and each seat's as they were recorded; those of seats that there are not stand behind them."""
    mine = surveys + [said for it, said in calls if it == ring and said.startswith("s ")]
    seats = [min(int(said.split(" ")[1]), 10) for said in mine]
    return [said for _, said in sorted(zip(seats, mine), key=lambda it: it[0])]


def judged(began, calls):
    """The history of a saved text and the calls behind it, and what the checker says of it."""
    text = told(began, calls)
    return (text, *check(text.encode("latin-1")))


def answer(data):
    """What is to be printed of these bytes: the whole is judged, and only if it is not legal the lines one after the other."""
    try:
        began, lines = split(data.decode("latin-1"))
        rings = sum(line.startswith("ring ") for line in began)
        calls = [call_of(line, began[0], rings) for line in lines]
        if None in calls:
            raise NotLegal(f"line {len(began) + 2 + calls.index(None)}: syntax")
        said, is_legal = judged(began, [])[1:]
        if not is_legal:
            raise NotLegal(later(said))
        text, said, is_legal = judged(began, calls)
        for count in range(1, len(calls) + 1) if not is_legal else ():
            said, is_legal = judged(began, calls[:count])[1:]
            if not is_legal:
                raise NotLegal(f"line {len(began) + 1 + count}: {said.split(' ')[2]}")
        return text + said + "\n"
    except NotLegal as refusal:
        return f"{refusal}\n"


def counted(texts):
    """Each answer to these texts and how often it comes, in the order in which they come first."""
    answers = {}
    for text in texts:
        it = answer(text)
        answers[it] = answers.get(it, 0) + 1
    return "".join(f"{count} times {it}" for it, count in answers.items())


def main():
    with open(sys.argv[-1], "rb") as file:
        data = file.read()
    if sys.argv[1] == "cuts":
        print("<recover|-|-\n" + counted(data[:end] for end in range(len(data))), end="")
    elif sys.argv[1] == "bytes":
        changed = (data[:i] + bytes([it]) + data[i + 1:] for i in range(len(data)) for it in OTHERS if it != data[i])
        print("^recover|-|-\n" + counted(changed), end="")
    else:
        print(answer(data), end="")


if __name__ == "__main__":
    main()
