"""Runs a farm in turns from the definitions alone: `python3 models/in_turn.py SETTINGS SEED` prints the saved history that
`ring_tool run SETTINGS --in-turn SEED --history -` prints, byte for byte. Settings that cannot be read are its caller's matter.

On each ring the seat of the next action is drawn among those that have an action left, by PCG32 with the seed as its state and the ring's
number as its stream. It shares no code with the program."""

import json
import sys

from drawn_repairs import Pcg32, is_privileged
from small_checker import privileged, rest_of

MOST = 2**64 - 1


def drawn_plan(rings, seat, number, is_worker):
    """The plan of a drawn seat: four words for each action."""
    words = Pcg32(seat["seed"], number)
    plan = []
    for _ in range(seat["actions"]):
        w1, w2, w3, w4 = (words.word() for _ in range(4))
        place = w1 % len(rings)
        machine = w3 % rings[place]["n"]
        if not is_worker:
            plan.append(["corrupt", place, machine, w4 % rings[place]["k"]])
        elif w2 % 8 == 0:
            plan.append(["survey", place])
        else:
            plan.append(["pass", place, machine, w4])
    return plan


def plans_of(settings):
    seats = [(it, True) for it in settings["workers"]]
    if settings.get("injector") is not None:
        seats.append((settings["injector"], False))
    return [
        seat["script"] if "script" in seat else drawn_plan(settings["rings"], seat, number, is_worker)
        for number, (seat, is_worker) in enumerate(seats)
    ]


class Ring:
    def __init__(self, ring, seats):
        self.k, self.values = ring["k"], list(ring["start"])
        self.grants = self.amount = self.calm = 0
        self.events, self.surveys = [], [[] for _ in range(seats)]

    def granted(self, machine, order):
        self.values[machine] = (self.values[0] + 1) % self.k if machine == 0 else self.values[machine - 1]
        self.grants, self.calm = self.grants + 1, self.calm + 1
        self.amount = min(self.amount + order, MOST)
        return f"g {self.grants} {self.amount}"

    def act(self, seat, action):
        if action[0] == "survey":
            movers = privileged(self.values)
            self.surveys[seat].append(f"s {seat} {len(self.events)} {len(movers)} {movers[0]} {self.calm} {rest_of(self.values, self.k)}")
            return
        kind, _, machine, last = action
        if kind == "pass":
            reply = self.granted(machine, last) if is_privileged(self.values, machine) else "n"
            self.events.append(f"p {seat} {machine} {last} {reply}")
        else:
            self.events.append(f"c {seat} {machine} {last} {self.values[machine]}")
            self.values[machine], self.calm = last, 0


def lines_of(settings, plans, place, seed):
    """The block of the ring at this place."""
    ring = settings["rings"][place]
    now, words = Ring(ring, len(plans)), Pcg32(seed, place)
    left = [[action for action in plan if action[1] == place][::-1] for plan in plans]
    while any(left):
        waiting = [seat for seat, actions in enumerate(left) if actions]
        seat = waiting[words.below(len(waiting))]
        now.act(seat, left[seat].pop())
    start = f"start {' '.join(map(str, ring['start']))}"
    return [f"ring {place} {ring['n']} {ring['k']}", start, *now.events, f"end {len(now.events)}", *(it for seat in now.surveys for it in seat)]


def saved(settings, seed):
    """The saved history of the settings in turns."""
    plans, places = plans_of(settings), range(len(settings["rings"]))
    lines = [line for place in places for line in lines_of(settings, plans, place, seed)]
    return "\n".join(["ringfarm 2", *lines, f"done {len(places)}", ""])


if __name__ == "__main__":
    with open(sys.argv[1], "rb") as file:
        sys.stdout.write(saved(json.load(file), int(sys.argv[2])))
