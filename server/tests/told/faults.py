#!/usr/bin/env python3
"""faults.py [SECONDS [NAME ..]]: the model notices faults. Each of them is made in a copy of the server, which is built; then the model has to
say within this time, a minute, that something is wrong. Without a fault it says nothing."""

import os
import shutil
import subprocess
import sys
import tempfile
import time

HERE = os.path.dirname(os.path.abspath(__file__))
SERVER = os.path.dirname(os.path.dirname(HERE))
SOURCES = "wozgirt-server/src"

#: a name, and in which file what is replaced by what
FAULTS = (
    ("none", "alone/mod.rs", "", ""),
    ("what was reported does not count", "alone/mod.rs", "        self.has_news |= self.hear_remarks(remarks);",
     "        self.sessions.values_mut().for_each(|session| session.holds.retain(|_| false));\n        self.has_news |= self.hear_remarks(remarks);"),
    ("remarks do not count", "alone/mod.rs", "self.hear_remarks(remarks)", "self.hear_remarks(Vec::from_iter(remarks.into_iter().take(0)))"),
    ("who waits gets what is nobody's", "alone/mod.rs", "        self.is_stale = true;\n        self.sessions.values().any",
     """        for (lock, token) in open.iter().filter(|hold| claims.get(*hold) == Some(&0)) {
            let waits = |it: &&mut Session| it.waits.as_ref().is_some_and(|place| place.lock == *lock);
            if let Some(session) = self.sessions.values_mut().find(waits) {
                session.hold(lock.clone(), *token);
            }
        }
        self.is_stale = true;
        self.sessions.values().any"""),
    ("a greater token counts", "alone/mod.rs", "        let mut claims: HashMap<(Lock, Token), usize>",
     """        for (lock, token) in open {
            for session in self.sessions.values_mut() {
                if session.holds.iter().any(|(held, known)| held == lock && known <= token) {
                    session.holds.put(lock.clone(), *token);
                }
            }
        }
        let mut claims: HashMap<(Lock, Token), usize>"""),
    ("the last number is forgotten", "alone/session.rs", "        let done = self.done_line(session).map(Line::Has);",
     "        let done: Option<Line> = None;"),
    ("no grace", "server/engine_side.rs", "self.grace_until = Some(now + grace);", "self.grace_until = Some(now);"),
    ("a hold of another lock ends what has no label", "alone/session.rs", "        if self.unlabelled.as_ref().is_some_and(|it| *it.lock == *lock) {",
     "        if self.unlabelled.as_ref().is_some_and(|it| *it.lock != *lock) {\n            self.unlabelled = None;\n        }\n"
     "        if self.unlabelled.as_ref().is_some_and(|it| *it.lock == *lock) {"),
    ("the old file goes first", "alone/store.rs", "        self.next = None;\n        let file = self.write_part(lines)?;",
     "        self.next = None;\n        let _ = fs::remove_file(self.sessions());\n        let file = self.write_part(lines)?;"),
)


def build(folder, file, old, new):
    """The server with this fault."""
    path = os.path.join(folder, SOURCES, file)
    with open(path, encoding="utf-8") as source:
        text = source.read()
    if old and text.count(old) != 1:
        raise SystemExit(f"{file} has not once: {old}")
    with open(path, "w", encoding="utf-8") as source:
        source.write(text.replace(old, new) if old else text)
    subprocess.run(["cargo", "build", "--quiet", "-p", "wozgirt-server"], cwd=folder, check=True)
    with open(path, "w", encoding="utf-8") as source:
        source.write(text)
    return os.path.join(folder, "out", "debug", "wozgirt-server")


def main():
    seconds = sys.argv[1] if sys.argv[1:] else "60"
    failed = 0
    with tempfile.TemporaryDirectory() as top:
        folder = os.path.join(top, "server")
        shutil.copytree(SERVER, folder, ignore=shutil.ignore_patterns("out", "__pycache__"))
        chosen = [it for it in FAULTS if not sys.argv[2:] or it[0] in sys.argv[2:]]
        for name, *fault in chosen:
            program, begun = build(folder, *fault), time.monotonic()
            said = subprocess.run([sys.executable, HERE, seconds, "1", "--server", program], capture_output=True, text=True, check=False)
            is_right = (said.returncode != 0) == (name != "none")
            failed += not is_right
            print(f"{'noticed' if said.returncode else 'not noticed'} after {time.monotonic() - begun:.0f} s: {name}")
            print("    " + "\n    ".join(line[:200] for line in said.stdout.splitlines()[:2]), flush=True)
    print(f"{len(chosen) - failed} passed, {failed} failed")
    return 1 if failed else 0


if __name__ == "__main__":
    sys.exit(main())
