"""Prints the rows of a ring whose machines are chosen one after the other, as `step_states` has to write them, by Dijkstra's rule and
the form of rows in FORMATS alone. Words: N K STATES [CHOICES]. It takes them for allowed. Of `states.py` it has what of a state is privileged, and the rest."""

import sys

from states import line_of, move, privileged, rest


def rows_of(k, start, choices):
    values, grants = list(start), 0
    last = {"kind": "start"}
    for place in range(len(choices) + 1):
        at = privileged(values)
        yield {"event": place, **last, "states": list(values), "privileged": len(at), "at": at, "rest": rest(k, values), "calm": grants}
        if place == len(choices):
            return
        last = {"kind": "refused", "machine": choices[place]}
        if choices[place] in at:
            grants += 1
            last = {"kind": "granted", "machine": choices[place], "number": grants}
            move(k, values, choices[place])


def numbers(word):
    return [int(number) for number in word.split(",")]


def text_of(k, start, choices):
    return "".join(f"{line_of(row, 'words')}\n" for row in rows_of(k, start, choices))


if __name__ == "__main__":
    print(end=text_of(int(sys.argv[2]), numbers(sys.argv[3]), numbers(sys.argv[4]) if len(sys.argv) > 4 else []))
