"""The kit's own module, as the scripts of this repository use it: `./build`, `.ci/prove` and `tools/crate.py`. It rests on names
inside the kit's command `rt`, which differ between kits of one logic: on as few as will do. Try it at each move to another kit."""
import importlib.machinery
import importlib.util
import os
import shutil
import sys
import threading

import edit_checks
import edit_sums
import edits

TOP = edits.TOP
# What a check over kept work takes of memory, of what the kit reckons for one from nothing
OVER = 1.2
# By how much an edit's check counts for less than a proof of as many lines where the kit chooses what comes first. So the proofs of
# the tests, which take minutes for few lines, begin as soon as they can, and the edits fill the processors behind them
EDIT = 20


def load():
    """Returns the kit's own module, the command `rt`, whose stamps ask each crate below once. The module with the crates is its `rtlib`."""
    sys.dont_write_bytecode = True
    file = os.path.realpath(shutil.which("rt") or sys.exit("there is no rt"))
    loader = importlib.machinery.SourceFileLoader("rt", file)
    rt = importlib.util.module_from_spec(importlib.util.spec_from_loader("rt", loader))
    loader.exec_module(rt)
    once_each(rt.rtlib)
    return rt


def once_each(rtlib):
    """Has a stamp ask each crate below once: the same sum, where the kit walks each way down the graph anew."""
    plain, here = rtlib.Crate.stamp, threading.local()

    def stamp(crate):
        known = getattr(here, "known", None)
        if known is not None and crate.folder in known:
            return known[crate.folder]
        here.known = {} if known is None else known
        try:
            here.known[crate.folder] = found = plain(crate)
            return found
        finally:
            if known is None:
                here.known = None

    rtlib.Crate.stamp = stamp


def edits_if_changed(crate):
    """The edits of a crate. They are tried where something on which their verdict rests is not as it was."""
    return edits.read(crate)[0]


def untried(rtlib, crates):
    """Of each crate, by its name, the edits that have to be tried: others were seen to be refused, and nothing of that has changed."""
    return edit_sums.untried(rtlib, crates)


def with_edits(rt, wanted):
    """Has `rt ci` try these edits too, by the crate's name, behind the proof and the tests of their crate. Returns a dict that gets the
    verdict of each edit."""
    in_lanes, verdicts = rt.in_lanes, {}

    def in_lanes_with_edits(tasks):
        crates, tasks = {it.name: it for it in rt.rtlib.crates_below(TOP)}, dict(tasks)
        for name, chosen in wanted.items():
            add_groups(rt, tasks, crates[name], edits.groups_of(chosen, edit_checks.MOST), verdicts)
        return in_lanes(tasks)

    rt.in_lanes = in_lanes_with_edits
    return verdicts


def add_groups(rt, tasks, crate, groups, verdicts):
    """Adds the tasks that try a crate's edits, which are joined in these groups: what they begin with, each group, and the end."""
    first, seed = [(crate.name, "proof"), (crate.name, "tests")], (crate.name, "seed", "joined")
    lines, needs, keys = crate.count(rb"\n") // EDIT, OVER * rt.need(crate), []

    def begin(given, jobs):
        return edit_checks.begun(rt, crate, jobs) if all(given[it] for it in first) else None

    def one(given, _jobs, group):
        if given[seed]:
            verdicts.update(given[seed].tried(group))

    def end(given, _jobs):
        if given[seed] and not given[seed].ended():
            verdicts.update({it: (edit_checks.NO_VERDICT, "what the tries begin with was changed") for group in groups for it in group})

    tasks[seed] = (first, lines, needs, begin)
    for number, group in enumerate(groups):
        keys.append((crate.name, "edits", f"joined {number}"))
        tasks[keys[-1]] = ([seed], lines, needs, lambda given, jobs, group=group: one(given, jobs, group))
    # (the kit divides by the memory that a task takes)
    tasks[crate.name, "sound", "joined"] = ([seed, *keys], 0, 1, end)


def outcomes(wanted, verdicts):
    """Of each edit whether it is refused, and a line that says so. One without a verdict was not tried, and is not refused."""
    untried = edit_checks.NO_VERDICT, "it was not tried"
    return [edit_checks.told(it, verdicts.get(it, untried)) for chosen in wanted.values() for it in chosen]


class Statements:
    """Builds without what later checks would go on from: of a library its statements, for the crates above it. They lie in out/rlib,
    the one place in out/ where the kit expects files of a library."""

    def __init__(self, rt, root):
        rt.rtlib.stop, rt.rtlib.Crate, rt.Crate.cuts_libraries = rt.stop, rt.Crate, True
        rt.Crate.allowed = rt.handles_of(root)
        self.rtlib = rt.rtlib

    def placed(self, crate):
        crate.rlib = f"{crate.folder}/out/rlib/statements/{crate.name}.rlib"

    def stamp(self, crate):
        made = [f"{crate.folder}/out/{crate.name}{end}" for end in ("", ".by-rattle")] if crate.is_program else []
        return crate.stamp() + "".join(map(self.rtlib.sum_of, made))

    def is_built(self, crate):
        return self.rtlib.text_of(f"{crate.folder}/out/rlib/statements/stamp") == self.stamp(crate)

    def unbuilt(self, crates):
        """The crates to build, of these, lowest first: statements fit only those below on which they were built."""
        found = []
        for it in crates:
            if not self.is_built(it) or any(below in found for below in it.below()):
                found.append(it)
        return found

    def build(self, crate, jobs):
        """Proves and builds a crate from nothing. Returns the kit's status."""
        folder, flags = f"{crate.folder}/out/rlib/statements", ["--jobs", str(jobs)]
        shutil.rmtree(folder, ignore_errors=True)
        os.makedirs(folder)
        before = crate.stamp()
        if crate.is_program:
            status = crate.ci(flags, False)
        else:
            status = crate.prove(["build", *crate.words(flags, keeps=False), "--statements", "-o", crate.rlib])
        if not status and before == crate.stamp():
            with open(f"{folder}/stamp", "w", encoding="utf-8") as it:
                it.write(self.stamp(crate))
        return status
