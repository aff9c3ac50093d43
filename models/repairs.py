"""Searches for the slowest repairs of rings of n machines with K = n values, and prints them as a table (docs/THEORY.md). Words: the
greatest n for the longest repair, from 2 to 10, and for the others, from 2 to 7; 8 and 6 if there are none. It takes 5
seconds; with `10 7` a quarter of an hour. Only the standard library is used, and nothing of this repository.

A state is the values of machines 1 to n - 1 less that of machine 0, modulo K, as bytes: to add a number to all values changes no
repair.

- First passes: the most passes until a ring is settled where the first privileged machine passes each time, over all states.
- Rounds: the least number of complete rounds after which every ring is settled, over all states and all choices. A machine that is
  asked while it is not privileged changes nothing, so each is taken as asked as soon as it is not privileged.
- Longest repair: the most granted passes until a ring is settled, over all states and all choices. Each pass lowers weight + n *
  lead by at least 1 until the ring is settled. So the length of a repair is the bound less its losses: what the first state has
  less than the bound, what each pass lowers beyond 1, and what weight + n * lead still is at the end. The search is Dijkstra's
  shortest path over the losses, from all states at once, in the order of the least loss with which a repair reaches a state. It
  ends at the first settled one, and leaves out no repair."""

import itertools
import sys
import time


def privileged(values):
    machines = [0] if values[-1] == 0 else []
    last = 0
    for machine, value in enumerate(values, 1):
        if value != last:
            machines.append(machine)
        last = value
    return machines


def moved(values, machine):
    if machine == 0:
        return bytes((value - 1) % (len(values) + 1) for value in values)
    left = values[machine - 2] if machine > 1 else 0
    return values[:machine - 1] + bytes((left,)) + values[machine:]


def all_states(n):
    return (bytes(values) for values in itertools.product(range(n), repeat=n - 1))


def first_passes(n):
    most = 0
    for values in all_states(n):
        passes = 0
        while len(machines := privileged(values)) > 1:
            values = moved(values, machines[0])
            passes += 1
        most = max(most, passes)
    return most


def after_a_round(values):
    """The states that are not settled and can end a complete round from this one."""
    ends, seen, open_ones = set(), set(), [(values, frozenset(privileged(values)))]
    while open_ones:
        state = open_ones.pop()
        if state in seen:
            continue
        seen.add(state)
        values, unasked = state
        machines = privileged(values)
        if len(machines) == 1:
            continue
        if not unasked:
            ends.add(values)
            continue
        for machine in machines:
            after = moved(values, machine)
            open_ones.append((after, unasked.intersection(privileged(after)) - {machine}))
    return ends


def rounds(n):
    now, known, number = {values for values in all_states(n) if len(privileged(values)) > 1}, {}, 0
    while now:
        after = set()
        for values in now:
            if values not in known:
                known[values] = after_a_round(values)
            after |= known[values]
        now = after
        number += 1
    return number


def weight_and_lead(values, n):
    """The weight plus n times the lead, which is not 0 in every settled ring."""
    last, weight, prefix = 0, 0, True
    for machine, value in enumerate(values, 1):
        if value != last:
            weight += n - machine
            prefix = prefix and value != 0
        last = value
    if prefix:
        return weight
    lead = 1
    while lead in values:
        lead += 1
    return weight + n * lead


def starts(n, lead, missing):
    """The states with this lead whose weight is `missing` less than the greatest. In one with a lead of at least 1 each value
    below the lead is held by some machine from 1 on, and the value `lead` by none."""
    wanted = n * (n - 1) // 2 - missing + n * lead
    found = []

    def place(machine, front, absent, missing):
        if machine == n:
            if missing == 0 and weight_and_lead(front, n) == wanted:
                found.append(front)
            return
        for value in range(n):
            cost = n - machine if value == (front[-1] if front else 0) else 0
            left = absent - {value}
            if cost <= missing and len(left) < n - machine and (value != lead or lead == 0):
                place(machine + 1, front + bytes((value,)), left, missing - cost)

    place(1, b"", frozenset(range(lead)), missing)
    return found


def longest_repair(n):
    bound = 3 * n * (n - 1) // 2
    done, waiting, least, loss = set(), {}, bound, 0
    while loss <= least:
        states = waiting.pop(loss, [])
        for part in range(min(loss // n, n - 1) + 1):
            states += starts(n, n - 1 - part, loss - n * part)
        while states:
            values = states.pop()
            if values in done:
                continue
            done.add(values)
            here = weight_and_lead(values, n)
            machines = privileged(values)
            if len(machines) == 1:
                least = min(least, loss + here)
                continue
            for machine in machines:
                after = moved(values, machine)
                more = here - weight_and_lead(after, n) - 1
                assert more >= 0, "a pass has not lowered weight + n * lead"
                if after not in done:
                    (waiting.setdefault(loss + more, []) if more else states).append(after)
        loss += 1
    return bound - least


def main():
    words = [int(word) for word in sys.argv[1:3]]
    most, most_of_all = (words + [8, 6][len(words):])
    print("| n = K | bound | longest repair | rounds | first passes |")
    print("|---|---|---|---|---|")
    for n in range(2, most + 1):
        begun = time.time()
        small = n <= most_of_all
        row = [n, 3 * n * (n - 1) // 2, longest_repair(n), rounds(n) if small else "", first_passes(n) if small else ""]
        print("| " + " | ".join(map(str, row)) + " |", flush=True)
        print(f"n = {n}: {time.time() - begun:.1f} s", file=sys.stderr)


main()
