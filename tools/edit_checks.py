"""Tries edits: many of different functions in one check, since a check goes on behind a function that it cannot prove and names for
each its own goals. Of each edit it tells what refuses it:

  clause, invariant   a goal of a clause of the function that the edit changes, or of an invariant of a loop or a type there; where it
                      changes no one function, of any function
  law                 a lemma below a law, where definitions were edited
  condition           what a function that is called asks for: it says little, as do the next two
  name                a proof file that names what the edit took away
  safety              an overflow, an index, what a call of std asks for, the end of a loop

An edit counts as refused by the first three and by nothing else."""
import os
import re
import shutil
import tempfile

import edits

TELLS = "clause", "invariant", "law"
LITTLE = "condition", "name", "safety"
# What else an edit can come to
NOT_REFUSED, NOT_READ, NO_VERDICT = "not refused", "not read", "no verdict"
MOST = 24
# An empty file in what a check keeps, which every check over it touches
LAST_USED = "rattle-last-used"
ITEM = re.compile(r"(fn|impl|struct|enum|trait) (\S+?): (.*)")
NOTE = re.compile(r"note: src/\S+?:\d+:\d+: it is not proved that (.*)")
OPEN = re.compile(r"note: `([^`]*)` of proofs/(\S+?)/(?:Answers|Invariants|Proof)\.antt must prove: ")
ERROR = re.compile(r"(?:\./)?proofs/(\S+?)\.antt:\d+:\d+: error: (?:`([^`]*)`: )?(.*)")
NAMES = re.compile(r"has no field|is not in scope|has no `|was not admitted|is no name|no such name")
SAFETY = re.compile(
    r"the (index|sum|subtraction|product|negation|divisor|amount|array|part|value fits|loop ends|float)|control never comes"
)


def kind_of(goal, said, own_names):
    """What kind of thing refuses: a goal by its name, or by what is said of it."""
    if NAMES.search(said):
        return "name"
    if re.match(r"overflow|index|unreachable", goal) or SAFETY.match(said) or re.search(r"decreases|-smaller", goal):
        return "safety"
    if "-requires" in goal:
        return "condition" if goal.partition("-")[0] in own_names else "safety"
    if re.match(r"returns|clause", goal):
        return "clause"
    if re.match(r"loop-|invariant|\S+-(preserved|init)\b", goal) or "invariant" in said or "ghost fields" in said:
        return "invariant"
    return "condition" if goal else ""


def own_names():
    """The names of the repository's functions: what another one asks for is a question of safety."""
    names = set()
    for at, _, files in os.walk(f"{edits.TOP}/crates"):
        for file in files:
            if file.endswith(".rt"):
                with open(f"{at}/{file}", encoding="utf-8") as it:
                    names.update(re.findall(r"\bfn (\w+)", it.read()))
    return names


def reasons_in(lines, own_names):
    """For each item that is not proved, what the check said against it: the kind, and the goal."""
    found, notes = {}, []
    for line in lines:
        if note := NOTE.match(line):
            goal = re.search(r"\(`([^`]*)`", note[1])
            notes.append((kind_of(goal[1] if goal else "", note[1], own_names), goal[1] if goal else note[1][:80]))
        elif left := OPEN.match(line):
            found.setdefault(left[2].replace("/", "::"), []).append((kind_of(left[1], "", own_names), left[1]))
        elif error := ERROR.match(line):
            folder, _, file = error[1].rpartition("/")
            item = folder.replace("/", "::") if file in ("Answers", "Invariants", "Proof") else ""
            if "depends on" not in error[3] and "depend on" not in error[3]:
                kind = kind_of(error[2] or "", error[3], own_names) if item else "name" if NAMES.search(error[3]) else "law"
                found.setdefault(item, []).append((kind, f"{error[2] or ''}{'' if item else ' in proofs/' + error[1]}".strip()))
        elif item := ITEM.match(line):
            if item[3] != "proved":
                searched = re.findall(r"did not prove `([^`]*)`", item[3])
                found.setdefault(item[2].partition("::")[2], []).extend([*notes, *[(kind_of(it, "", own_names), it) for it in searched if not notes]])
            notes = []
    return found


def said_of(found, place):
    """What was said against the function at this place. A method is named by its type, wherever that is, with its trait, and with the
    types that the trait is of where the type has it for several."""
    file, function, owner = place
    module = file.removeprefix("src/").removesuffix(".rt").replace("/", "::")
    own = f"{module}::{function}" if module not in ("lib", "main") else function
    if not owner:
        return found.get(own, [])
    for name in (re.sub("[<>]", "", owner), owner.partition("<")[0]):
        names = [it for it in found if f"::{it}".endswith(f"::{name}::{function}")]
        if names:
            return [reason for it in names for reason in found[it]]
    return []


def judged(reasons):
    """The kind of the reasons that tells most, and their goals."""
    for kind in (*TELLS, *LITTLE):
        goals = list(dict.fromkeys(goal.replace(" ", "-") for its, goal in reasons if its == kind))
        if goals:
            return kind, " ".join(goals[:3])
    return "", ""


class Trial:
    """The tries of a crate's edits, each over a copy of what a check of the crate as it stands kept."""

    def __init__(self, rt, crate, seed):
        self.rt, self.crate, self.seed, self.names = rt, crate, seed, own_names()
        self.before = listing(seed)

    def ended(self):
        """Removes what the crate's own check kept. Returns whether it was as it had left it."""
        is_sound = listing(self.seed) == self.before
        shutil.rmtree(os.path.dirname(self.seed), ignore_errors=True)
        return is_sound

    def checked(self, texts):
        """The status of a check of the crate with these texts, and its lines."""
        with tempfile.TemporaryDirectory(prefix="edits-", dir=os.path.dirname(self.seed)) as room:
            shutil.copytree(self.seed, f"{room}/kept")
            ran = self.rt.checked(self.crate, texts, ["--jobs", "1"], f"{room}/kept")
        return ran.returncode, ran.stdout.rstrip("\n").split("\n")

    def tried(self, joined):
        """Tries edits of different functions, or one edit. Returns the verdict of each: its kind, and what refuses it. Those that the check
        of all of them does not refuse are tried alone, and all of them in two parts if it stops before any proof."""
        texts, places = {}, {}
        for edit in joined:
            why, places[edit] = edits.apply(edit, texts)
            if why:
                return {it: (NOT_READ, why) for it in joined}
        status, lines = self.checked(texts)
        bad = next((it for it in lines if self.rt.unread(it, texts)), "")
        is_reached = lines[-1].startswith("logic=") and not bad
        if len(joined) == 1:
            return {joined[0]: self.verdict(places[joined[0]], status, lines, bad, is_reached)}
        if not is_reached:
            half = len(joined) // 2
            return {**self.tried(joined[:half]), **self.tried(joined[half:])}
        found, told = reasons_in(lines, self.names), {}
        for edit in joined:
            told[edit] = judged(said_of(found, *places[edit]))
            if told[edit][0] not in TELLS:
                told.update(self.tried([edit]))
        return told

    def verdict(self, places, status, lines, bad, is_reached):
        """The verdict of an edit that was tried alone."""
        if not is_reached:
            return (NOT_READ if bad or status == 1 else NO_VERDICT), (bad or next((it for it in lines if "error" in it), lines[-1]))[:200]
        if status == 0:
            return NOT_REFUSED, "the crate is still proved"
        found = reasons_in(lines, self.names)
        if None in places:
            reasons = [(kind, f"{goal} of {name}" if name else goal) for name, its in found.items() for kind, goal in its]
        else:
            reasons = [reason for place in places for reason in said_of(found, place)]
        kind, goals = judged(reasons)
        if not kind or (kind == "law" and None not in places):
            first = next((it for it in lines if ITEM.match(it) and not it.endswith(": proved")), lines[-1])
            return NO_VERDICT, f"no goal of its function: {first[:160]}"
        return kind, goals


def listing(folder):
    """Each file below a folder, with its size and the moment of its last change, but for those that say when a check last used them."""
    found = {}
    for at, _, files in os.walk(folder):
        for name in (it for it in files if it != LAST_USED):
            told = os.stat(f"{at}/{name}")
            found[os.path.relpath(f"{at}/{name}", folder)] = told.st_size, told.st_mtime_ns
    return found


def begun(rt, crate, jobs, kept=None):
    """A trial over what a check of the crate as it stands keeps, which begins with what an earlier one kept in a folder; none where the
    crate is not proved."""
    room = tempfile.mkdtemp(prefix="edits-")
    seed = f"{room}/seed"
    if kept and os.path.isdir(kept):
        shutil.copytree(kept, seed)
    else:
        os.mkdir(seed)
    if rt.checked(crate, {}, ["--jobs", str(jobs)], seed).returncode == 0:
        return Trial(rt, crate, seed)
    shutil.rmtree(room, ignore_errors=True)
    return None


def told(edit, verdict):
    """A line that says what an edit came to, and whether it is refused."""
    kind, goals = verdict
    return kind in TELLS, f"edit {edit}: {f'refused, as it must be: {kind} {goals}' if kind in TELLS else f'{kind.upper()}: {goals}'}"
