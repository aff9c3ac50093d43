#!/usr/bin/env python3
"""tools/crate.py [proof|tests|edits CRATE ..]: what the gate does for some crates alone: their proof, from nothing and with the search
for contracts that no call can meet, which `rt check` leaves out; or their tests, proved and run; or those of their edits that
the gate would try, since something has changed, and notes in wrong/tried.txt which are refused. It prints what failed, and the
processor seconds of each.

tools/crate.py edits --all [CRATE ..] tries every edit of these crates, or of all.

tools/crate.py check CRATE [FLAG ..] checks a crate over what such a check kept, as `rt check` does; the flags are rattle's, such as
--only PATH.

Of the libraries below, these load the statements that ./build and such runs kept; libraries that have changed are proved first.

With no words: the gate's checks that prove nothing, over all crates: the layout of files, files that nothing reads, words that mean
something else to a reader, edits that cannot be applied or name no promise.

The status is 0 if nothing failed. It is no verdict: `rt ci` is. It rests on the kit's own module, as ./build does: try it at each move
to another kit. Needs rt and python3."""
import os
import re
import resource
import sys
import tempfile

sys.dont_write_bytecode = True
sys.path.insert(0, os.path.dirname(os.path.realpath(__file__)))

import edit_checks
import edit_sums
import edits
import kit

TOP = kit.TOP
# What the check of a crate keeps: the libraries below are statements
KEPT = "out/over-statements"


def gate():
    """The kit's module, set up as for `rt ci`, and its crates, lowest first."""
    rt = kit.load()
    rt.rtlib.guarded()
    form = kit.Statements(rt, TOP)
    crates = sorted(rt.rtlib.crates_below(TOP), key=lambda it: len(it.below()))
    for it in crates:
        form.placed(it)
    return rt, form, crates


def stopped(rt, crate, crates):
    """Why the gate would not begin with the crate, if so."""
    why = []
    for look in (lambda: rt.rtlib.stop_on_links(crate.folder), lambda: rt.rtlib.stop_on_unread(crate.folder, crates),
                 lambda: rt.rtlib.stop_on_text(crate, "verdict"), lambda: rt.stop_on_words(crate)):
        try:
            look()
        except SystemExit:
            why.append("as said above")
    code = rt.rtlib.code_of(crate.folder)
    why += [f"it names what {it} reaches" for it, words in rt.REACHES.items() if it not in crate.allowed and re.search(words, code)]
    why += ["it renames std, or takes it whole"] * bool(re.search(rt.RENAMES, code)) + ["a test is ignored"] * bool(re.search(rt.IGNORED, code))
    why += ["its layout is another"] * bool(rt.rtlib.fmt(crate.folder, "--check", sys.stdout))
    return why + faults_of_edits(rt, crate)


def faults_of_edits(rt, crate):
    """What is wrong with the crate's edits, as far as it shows without a proof."""
    found, faults = edits.read(crate)
    of_the_kit = [*rt.edits_of(crate)[0], *rt.edits_of(crate)[1]]
    return [
        *(f"{os.path.basename(edits.path_of(crate))}: {it}" for it in faults),
        *(f"edit {it.name}: {why}" for it in found for why in [edits.apply(it, {})[0]] if why),
        *(f"{os.path.relpath(it)}: edits are in {os.path.relpath(edits.path_of(crate))}" for it in of_the_kit),
    ]


def proved(rt, crate, tests):
    """Proves the crate, or its tests, from nothing, and runs these; whether all is well."""
    with tempfile.TemporaryFile("a+", errors="replace") as crate.out:
        os.makedirs(f"{crate.folder}/out", exist_ok=True)
        words = crate.words(["--jobs", "2"], tests=tests, keeps=False)
        status = crate.ci(["--jobs", "2"], True) if tests else crate.prove(["check", *words])
        crate.out.seek(0)
        if status:
            print(crate.out.read(), end="")
    return not status and (not tests or rt.run(crate, True))


def checked(rt, crate, flags):
    """Checks the crate, with its tests if it has some, over what such a check kept; whether it is proved."""
    tests = ["--test"] * crate.has_tests()
    jobs = [] if any(it.startswith("--jobs") for it in flags) else ["--jobs", "2"]
    words = [*crate.words([*jobs, *tests, *flags], keeps=False), "--incremental", KEPT]
    return not crate.call(rt.rtlib.RATTLE, "check", *words)


def spent():
    """The processor seconds of all checks so far."""
    children = resource.getrusage(resource.RUSAGE_CHILDREN)
    return children.ru_utime + children.ru_stime


def tried(rt, crate, flags):
    """Tries the crate's edits as the gate does, all of them or those of which something has changed; whether each is refused. Notes those
    that are as the checks end, so that the gate leaves them out until something changes."""
    chosen = edits.read(crate)[0] if "--all" in flags else edit_sums.untried(rt.rtlib, [crate]).get(crate.name, [])
    sums = {it: edit_sums.sum_of(rt.rtlib, it, {}) for it in chosen}
    trial, is_well = edit_checks.begun(rt, crate, 2, f"{crate.folder}/{KEPT}") if chosen else None, True
    if chosen and not trial:
        print(f"{crate.name}: the crate as it stands is not proved, so no edit was tried")
        return False
    for group in edits.groups_of(chosen, edit_checks.MOST):
        before = spent()
        verdicts = trial.tried(group)
        print(f"{len(group)} joined: {(spent() - before) / len(group):.1f} processor seconds each", flush=True)
        for edit, verdict in verdicts.items():
            is_refused, line = edit_checks.told(edit, verdict)
            is_well = is_well and is_refused
            print(line, flush=True)
        same = {it for it in group if sums[it] == edit_sums.sum_of(rt.rtlib, it, {})}
        edit_sums.note_tried({str(it): (sums[it], *verdicts[it]) for it in same if verdicts[it][0] in edit_checks.TELLS})
    if trial and not trial.ended():
        print(f"{crate.name}: what the tries begin with was changed meanwhile, so remove what they noted", flush=True)
        return False
    return is_well


def main(what="", *names):
    os.chdir(TOP)
    rt, form, crates = gate()
    if not what:
        faults = [f"{crate.name}: {why}" for crate in crates for why in stopped(rt, crate, crates)]
        print(*faults, f"{len(crates)} crates, {len(faults)} faults", sep="\n")
        return bool(faults)
    flags = names[1:] if what == "check" else [it for it in names if it.startswith("-")]
    names = [it for it in names if it not in flags] or [it.name for it in crates if edits.read(it)[0] and "--all" in flags]
    chosen = [it for it in crates if it.name in names]
    if what not in ("check", "proof", "tests", "edits") or len(chosen) < max(len(names), 1):
        sys.exit(__doc__)
    failed = []
    for crate in chosen:
        crate.out = sys.stdout
        for below in form.unbuilt(crate.below()):
            print(f"{below.name}, below {crate.name}", flush=True)
            os.makedirs(f"{below.folder}/out", exist_ok=True)
            with open(f"{below.folder}/out/first.log", "w", errors="replace") as below.out:
                if form.build(below, 2):
                    sys.exit(f"{below.name} is not proved: {os.path.relpath(below.folder)}/out/first.log says why")
        before = spent()
        is_well = tried(rt, crate, flags) if what == "edits" else checked(rt, crate, flags) if what == "check" else proved(rt, crate, what == "tests")
        print(f"{crate.name}: {what} {'well' if is_well else 'FAILED'}, {spent() - before:.0f} processor seconds", flush=True)
        failed += [crate.name] * (not is_well)
    return bool(failed)


if __name__ == "__main__":
    sys.exit(main(*sys.argv[1:]))
