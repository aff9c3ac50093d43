"""`ring_tool serve` under cuts, with a journal that is a file or a folder of short segments: each call that was answered is an event or a
survey of the history that is recovered, and no other is there than those that were made."""

import os
import subprocess

from .disk import TAKEN
from .histories import History, recovered

RINGS = ("3:3", "4:4", "5:7")
SECONDS = 60


def machines(ring):
    return int(RINGS[ring].partition(":")[0])


def a_call(draw):
    """A line of a client."""
    ring, seat = draw.randrange(len(RINGS)), draw.randrange(10)
    count = machines(ring)
    what = draw.choice(("pass", "pass", "pass", "try", "survey", "corrupt", "group", "glance", "wrong"))
    if what in ("pass", "try"):
        return f"{what} {ring} {seat} {draw.randrange(count)} {draw.randrange(1000)}"
    if what == "corrupt":
        return f"corrupt {ring} {seat} {draw.randrange(count)} {draw.randrange(3)}"
    if what == "group":
        chosen = sorted(draw.sample(range(count), draw.randint(1, 2)))
        return f"group {ring} {seat} {draw.randrange(1000)} {' '.join(map(str, chosen))}"
    return {"survey": f"survey {ring} {seat}", "glance": f"glance {ring}", "wrong": "pass 9 0 0 1"}[what]


def noted(call, answer):
    """The lines of the history that this answer tells of, with the ring, and the seat of a survey. A member of a group is told by its seat,
    its order, how many follow and the machines."""
    said, told = call.split(" "), answer.split(" ")
    if told[0] == "granted":
        return [(said[1], f"p {said[2]} {said[3]} {said[4]} g {told[1]} {told[2]}")]
    if answer == "waits" and said[0] == "pass":
        return [(said[1], f"p {said[2]} {said[3]} {said[4]} n")]
    if told[0] == "corrupted":
        return [(said[1], f"c {said[2]} {said[3]} {said[4]} {told[1]}")]
    if told[0] == "block":
        return [(said[1], ("m", said[2], said[3], str(len(said) - 5 - i), frozenset(said[4:]))) for i in range(len(said) - 4)]
    if told[0] == "survey" and said[0] == "survey":
        return [((said[1], said[2]), f"s {said[2]} {' '.join(told[1:])}")]
    return []


def is_it(wanted, line):
    """Whether this line of the history is the one that was told of."""
    if isinstance(wanted, str):
        return wanted == line
    kind, seat, machine, order, left = line.split(" ")[:5]
    return (kind, seat, order, left) == wanted[:4] and machine in wanted[4]


def is_of(line, call, place):
    """Whether a line of the history, of a ring or of a ring and seat, is of this call."""
    words, said = line.split(" "), call.split(" ")
    if words[0] == "s":
        return said[0] == "survey" and tuple(said[1:3]) == place
    if said[0] not in {"p": ("pass", "try"), "c": ("corrupt",), "m": ("group",)}[words[0]] or said[1] != place or said[2] != words[1]:
        return False
    if words[0] == "m":
        return said[3] == words[3] and words[2] in said[4:]
    return said[3] == words[2] and (words[0] == "p" and said[4] == words[3] or words[0] == "c" and said[4] == words[3])


class Serve:
    """The rings of one journal, through all lives."""

    def __init__(self, engine, is_folder, *more):
        self.engine, self.is_folder, self.more = engine, is_folder, more
        self.name = f"serve with a {'folder' if is_folder else 'file'}"
        self.base, self.sent, self.extra = History(), [], 0

    def prepare(self, folder):
        self.fresh = os.path.join(os.path.dirname(folder), "fresh.txt")
        made = subprocess.run([self.engine, "new", *RINGS], capture_output=True, check=True)
        with open(self.fresh, "wb") as file:
            file.write(made.stdout)
        if self.is_folder:
            os.makedirs(self.journal(folder))

    def journal(self, folder):
        return os.path.join(folder, "journal")

    def words(self, folder):
        return [self.engine, "serve", self.fresh, "--journal", self.journal(folder), "--faults", *self.more]

    def batches(self, draw):
        """Lines that are sent at once, and when they have their answers."""
        self.sent = []
        for _ in range(draw.randint(1, 8)):
            calls = [a_call(draw) for _ in range(draw.choice((1, 3, 20, 60, 300)))]
            self.sent += calls
            yield "".join(f"{it}\n" for it in calls), lambda answers, count=len(calls): answers.count(b"\n") >= count

    def history(self, folder):
        """What is recovered; nothing where there is no journal yet, or an empty file."""
        journal = self.journal(folder)
        return recovered(journal) if os.path.isdir(journal) or os.path.exists(journal) and os.path.getsize(journal) else History()

    def judge(self, folder, told, kind, is_started=False):
        """What is wrong with what is recovered: an answer that was told is missing, or there is what nobody asked for."""
        history = self.history(folder)
        wrong = [f"{self.name}: {it}" for it in history.wrong] if kind in TAKEN else []
        wanted = {place: list(lines) for its in (self.base.events, self.base.surveys) for place, lines in its.items()}
        for call, answer in zip(self.sent, told):
            for place, line in noted(call, answer):
                wanted.setdefault(place, []).append(line)
        found = {**history.events, **history.surveys}
        for place, lines in wanted.items():
            there = found.get(place, [])
            at = next((i for i, line in enumerate(lines) if i >= len(there) or not is_it(line, there[i])), None)
            if at is not None:
                wrong.append(f"of {place} number {at + 1} of {len(lines)} is missing: {lines[at]}, there is {there[at:at + 1]}")
        more = [it for place, lines in found.items() for it in self.unasked(place, lines[len(wanted.get(place, [])):], len(told))]
        if kind in TAKEN:
            wrong += [f"nobody asked for it: {it}" for it in more]
        self.extra = len(more)
        return wrong

    def unasked(self, place, lines, told):
        """Those that are of no call that was sent and not answered, one after the other."""
        calls = iter(self.sent[told:])
        group = None
        for line in lines:
            if group and line.startswith("m ") and is_of(line, group, place):
                continue
            group = next((call for call in calls if is_of(line, call, place)), None)
            if group is None:
                yield f"{place} {line}"

    def start(self, folder):
        """Starts an engine that is asked nothing, and has the journal checked: how that is refused, or nothing."""
        ran = subprocess.run(self.words(folder), stdin=subprocess.DEVNULL, capture_output=True, timeout=SECONDS, check=False)
        if ran.returncode:
            return f"status {ran.returncode}, {ran.stderr.decode(errors='replace')}"
        words = ["check", self.journal(folder)] if self.is_folder else ["recover", self.journal(folder), os.path.join(folder, "new.txt")]
        checked = subprocess.run([self.engine, *words], capture_output=True, timeout=SECONDS, check=False)
        return "" if checked.stdout.startswith(b"legal ") else f"status {checked.returncode}, {checked.stderr.decode(errors='replace')}"

    def adopt(self, folder, _):
        """What is recovered now is there in the next life too."""
        self.base = self.history(folder)
