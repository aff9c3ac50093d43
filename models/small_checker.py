"""A second checker of saved histories, small and slow, written from docs/FORMATS.md alone: it shares no code with the
program, so that the two can be compared. `answer` gives the line that `ring_tool check` prints."""

import sys

BELOW_32, BELOW_64 = 2**32, 2**64

# the first line of each version, and how many machines and values its rings have at most
FIRST_LINES = {"ringfarm 1": (256, 256), "ringfarm 2": (1024, 65536)}

# each kind of line: its words and, for a number, its limit; the numbers of a start line depend on the ring line before it
LINES = {
    "ring": ["ring", BELOW_32, BELOW_32, BELOW_32],
    "granted": ["p", BELOW_32, BELOW_32, BELOW_64, "g", BELOW_64, BELOW_64],
    "refused": ["p", BELOW_32, BELOW_32, BELOW_64, "n"],
    "member": ["m", BELOW_32, BELOW_32, BELOW_64, BELOW_32, BELOW_64, BELOW_64],
    "corrupted": ["c", BELOW_32, BELOW_32, BELOW_32, BELOW_32],
    "end": ["end", BELOW_64],
    "survey": ["s", BELOW_32, BELOW_64, BELOW_32, BELOW_32, BELOW_64, BELOW_64],
    "done": ["done", BELOW_32],
}
FOLLOWS = {"first": ["ring"], "ring": ["start"], "done": []}
FOLLOWS.update({it: ["granted", "refused", "member", "corrupted", "end"] for it in ("start", "granted", "refused", "member", "corrupted")})
FOLLOWS.update({it: ["survey", "ring", "done"] for it in ("end", "survey")})


# the kinds of lines that are in no text of the first version
LATER = {"ringfarm 1": ["member"], "ringfarm 2": []}


class NotLegal(Exception):
    pass


def is_number(token, limit):
    canonical = token == "0" or (token.isascii() and token.isdigit() and token[0] != "0")
    return canonical and len(token) <= 20 and int(token) < limit


def fits(token, part):
    return token == part if isinstance(part, str) else is_number(token, part)


def begins(token, part):
    """Whether the token can be gone on to one that fits."""
    return token == "" or (part.startswith(token) if isinstance(part, str) else is_number(token, part))


def parts_of(kind, machines):
    """The words of a kind of line; a start line has as many values as the ring has machines (here no more than a million)."""
    return LINES[kind] if kind != "start" else ["start"] + [BELOW_32] * min(machines, 10**6)


def is_line(kind, tokens, machines):
    parts = parts_of(kind, machines)
    whole = len(tokens) == len(parts) and all(map(fits, tokens, parts))
    return whole and not (kind == "ring" and tokens[2] == "0")


def can_become(kind, tokens, machines):
    """Whether a last line with no LF can be gone on to a line of this kind."""
    parts = parts_of(kind, machines)
    if len(tokens) > len(parts) or not all(map(fits, tokens[:-1], parts)):
        return False
    zero = kind == "ring" and len(tokens) >= 3 and tokens[2] == "0"
    return begins(tokens[-1], parts[len(tokens) - 1]) and not zero


def lines_of(text):
    """The lines of a text with their kinds, or the refusal of bytes that are no text."""
    *whole, rest = text.split("\n")
    state, machines, found = None, 0, []
    later = LATER.get(text.split("\n", 1)[0], [])
    for number, line in enumerate(whole, 1):
        if state is None:
            kinds = ["first"] if line in FIRST_LINES else []
        else:
            kinds = [it for it in FOLLOWS[state] if it not in later and is_line(it, line.split(" "), machines)]
        if not kinds:
            raise NotLegal(f"line {number}: syntax")
        state = kinds[0]
        numbers = [int(it) for it in line.split(" ")[1:] if it not in ("g", "n")]
        machines = numbers[1] if state == "ring" else machines
        found.append((state, numbers))
    if state is None:
        goes_on = any(it.startswith(rest) for it in FIRST_LINES)
    else:
        goes_on = any(can_become(it, rest.split(" "), machines) for it in FOLLOWS[state] if it not in later)
    if state == "done" and rest == "":
        return found
    raise NotLegal("text is truncated" if goes_on else f"line {len(whole) + 1}: syntax")


def privileged(values):
    """The machines that may move: machine 0 with the last one's value, each other with another than its left neighbour's."""
    return [i for i, value in enumerate(values) if (value == values[i - 1]) == (i == 0)]


def rest_of(values, k):
    """What is left of a repair: 0 with one privilege, else the weight and n times the lead."""
    n, movers = len(values), privileged(values)
    if len(movers) == 1:
        return 0
    holders = [i for i, value in enumerate(values) if value == values[0]]
    if holders == list(range(len(holders))):
        lead = 0
    else:
        lead = next(j for j in range(1, k + 1) if (values[0] + j) % k not in values[1:])
    return sum(n - i for i in movers if i > 0) + n * lead


class Block:
    """One ring of the text, played again from its start."""

    def __init__(self, n, k):
        self.n, self.k, self.values = n, k, []
        self.grants = self.amount = self.calm = self.events = self.corruptions = self.surveys = 0
        # the last survey's seat and position, and what a survey tells at each place so far, None inside a group's members
        self.last, self.places = (-1, 0), []
        # the members so far of a group that is not complete: seat, order, left and machine of each
        self.members = []

    def take(self, kind, numbers):
        """What is wrong with a line of this block; a right one is taken in."""
        if kind == "survey":
            return self.fault_of_survey(numbers)
        if kind == "end":
            return "count" if numbers[0] != self.events else "group" if self.members else None
        if kind == "start":
            fault = "range" if any(it >= self.k for it in numbers) else None
            self.values = numbers
        else:
            fault = self.fault_of_event(kind, numbers) or self.fault_of_group(kind, numbers)
        if not fault:
            self.do(kind, numbers)
        return fault

    def keep(self):
        movers = privileged(self.values)
        self.places.append(None if self.members else (len(movers), movers[0], self.calm, rest_of(self.values, self.k)))

    def fault_of_event(self, kind, numbers):
        seat, machine = numbers[0], numbers[1]
        if seat > 9 or machine >= self.n or (kind == "corrupted" and numbers[2] >= self.k):
            return "range"
        if kind == "corrupted":
            return None if numbers[3] == self.values[machine] else "reply"
        may = machine in privileged(self.values)
        if kind == "refused":
            return "reply" if may else None
        right = (self.grants + 1, min(self.amount + numbers[2], BELOW_64 - 1))
        return None if may and right == tuple(numbers[-2:]) else "reply"

    def fault_of_group(self, kind, numbers):
        """Whether an event stands where a group's members allow no such one."""
        if kind != "member":
            return "group" if self.members else None
        seat, machine, order, left = numbers[:4]
        if left > self.n - 2 or (self.members and (seat, order, left + 1) != self.members[-1][:3]):
            return "group"
        machines = [it[3] for it in self.members] + [machine]
        left_out = [it for it in range(self.n) if it not in machines]
        if left > 0:
            return None
        if not left_out:
            return "group"
        below = [it for it in machines if it < left_out[0]]
        above = [it for it in machines if it > left_out[0]]
        return None if machines == sorted(set(below), reverse=True) + sorted(set(above), reverse=True) else "group"

    def do(self, kind, numbers):
        machine = numbers[1]
        if kind == "corrupted":
            self.values[machine], self.calm, self.corruptions = numbers[2], 0, self.corruptions + 1
        elif kind in ("granted", "member"):
            self.grants, self.calm, self.amount = self.grants + 1, self.calm + 1, numbers[-1]
            self.values[machine] = (self.values[0] + 1) % self.k if machine == 0 else self.values[machine - 1]
        if kind == "member":
            seat, _, order, left = numbers[:4]
            self.members = self.members + [(seat, order, left, machine)] if left > 0 else []
        self.events += kind != "start"
        self.keep()

    def fault_of_survey(self, numbers):
        seat, position, *told = numbers
        if seat > 9:
            return "range"
        if position >= len(self.places) or tuple(told) != self.places[position] or (seat, position) < self.last:
            return "survey"
        self.last, self.surveys = (seat, position), self.surveys + 1
        return None


def fault_of_ring(numbers, blocks, most):
    place, n, k = numbers
    if not (2 <= n <= most[0] and n <= k <= most[1]):
        return "parameter"
    return None if place == len(blocks) else "count"


def fault_of(kind, numbers, blocks, most):
    """What is wrong with a line behind those before it, which are right; a right line is taken in."""
    if kind == "first":
        return None
    if kind == "ring":
        fault = fault_of_ring(numbers, blocks, most)
        blocks.append(Block(numbers[1], numbers[2]))
        return fault
    if kind == "done":
        return None if numbers[0] == len(blocks) else "count"
    return blocks[-1].take(kind, numbers)


def answer(data):
    """What is to be printed of these bytes, and whether they are legal."""
    try:
        text, blocks = data.decode("latin-1"), []
        lines = lines_of(text)
        most = FIRST_LINES[text.split("\n", 1)[0]]
        for number, (kind, numbers) in enumerate(lines, 1):
            fault = fault_of(kind, numbers, blocks, most)
            if fault:
                raise NotLegal(f"line {number}: {fault}")
    except NotLegal as refusal:
        return str(refusal), False
    sums = [len(blocks)] + [sum(count(it) for it in blocks) for count in (
        lambda it: it.events, lambda it: it.grants, lambda it: it.corruptions, lambda it: it.surveys)]
    return "legal rings {} events {} granted {} corrupted {} surveys {}".format(*sums), True


if __name__ == "__main__":
    with open(sys.argv[1], "rb") as file:
        text, is_legal = answer(file.read())
    print(text)
    sys.exit(0 if is_legal else 1)
