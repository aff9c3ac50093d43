"""The blocks of the pages that a newcomer reads, each section's pasted as a whole into a shell in a clean folder: nothing waits between
its lines but what they wait for, so none may rest on the one before it having got so far.

A section is pasted if a block of it has commands after `$ `; one after `<!-- played: PATH -->` is played by that script, and left out.
The folder has the link `examples`, as the top of the repository has. Blocks that make the programs have no `$ `: ./test and ./build do
what they say."""

import contextlib
import os
import re
import signal
import subprocess
import sys
import tempfile
import unittest

from harness import GROUPS, COMMAND, ENGINE, FOLDER, IS_DOUBLE, PATIENCE, SERVER, TOP, Server, needs_programs

sys.path.insert(0, os.path.join(TOP, "tools"))

from page import Page  # noqa: E402

#: how often a section with a server is pasted, which may be faster or slower than its clients
TIMES = 10
#: `wozgirt` on a machine where a program that is started later may well be there first
WOZGIRT = f"""#!/bin/bash
sleep "0.$((RANDOM % 4))"
exec '{COMMAND}' "$@"
"""


def sections(path):
    """Of each section with commands: its heading, the commands, and what they print."""
    found = {}
    for block in Page(TOP, path).blocks:
        first, sessions = block.sessions()
        if sessions and not block.mark:
            assert not first.strip(), (path, block.number)
            commands, printed = found.setdefault(block.section, ([], []))
            for command, text in sessions:
                commands.append(command)
                printed += text.strip("\n").split("\n") if text.strip() else []
    return [(heading, *it) for heading, it in found.items()]


#: what `wozgirt` also says on a busy machine, when the server is late to say that nothing waits any more
LATE = "wozgirt: not in time: the server does not answer; the connection is closed, so nothing waits for the lock"


def plain(line):
    """Times are those of the day, digests those of the keys that clients drew, and columns are as wide as they need to be."""
    line = re.sub(r"\b[0-9a-f]{64}\b", "DIGEST", line)
    return " ".join(re.sub(r"\b\d+(\.\d+)? m?s\b", "TIME", line).split())


def pasted(commands):
    """What a shell prints that is given all of these at once, in an empty folder, with the programs in its PATH."""
    with tempfile.TemporaryDirectory(dir=FOLDER) as folder, tempfile.TemporaryDirectory(dir=FOLDER) as programs:
        for program, place in ((SERVER, "wozgirt-server"), (ENGINE, "ring_tool")):
            os.symlink(program, os.path.join(programs, place))
        with open(os.path.join(programs, "wozgirt"), "w", encoding="utf-8", opener=lambda path, flags: os.open(path, flags, 0o700)) as file:
            file.write(WOZGIRT)
        os.symlink(os.path.join(TOP, "examples"), os.path.join(folder, "examples"))
        env = dict(os.environ, PATH=programs + ":" + os.environ["PATH"])
        env.pop("WOZGIRT_SOCKET", None)
        shell = subprocess.Popen(["bash", "--norc"], stdin=subprocess.PIPE, stdout=subprocess.PIPE, stderr=subprocess.STDOUT, text=True,
                                 cwd=folder, env=env, start_new_session=True)
        GROUPS.append(shell.pid)
        try:
            end = ["kill %1"] if any(it.endswith("&") for it in commands) else []
            return shell.communicate("\n".join([*commands, *end]) + "\n", timeout=PATIENCE)[0].splitlines()
        finally:
            with contextlib.suppress(ProcessLookupError):
                os.killpg(shell.pid, signal.SIGKILL)
            GROUPS.remove(shell.pid)


class Pasting(unittest.TestCase):
    def play(self, path, needs_program):
        """Those sections of a page that need `ring_tool`, or those that do not."""
        found = [it for it in sections(path) if needs_program == any("ring_tool " in command for command in it[1])]
        self.assertTrue(found, "no section has such commands")
        for heading, commands, printed in found:
            with self.subTest(heading):
                for _ in range(TIMES if any("wozgirt-server" in it for it in commands) else 1):
                    self.assertEqual([plain(it) for it in pasted(commands) if it != LATE], [plain(it) for it in printed])


@needs_programs
class WithTheServer(Pasting):
    def test_the_page_for_those_who_run_it(self):
        self.play("docs/OPERATING.md", needs_program=False)

    def test_the_page_for_programs(self):
        self.play("docs/CLIENTS.md", needs_program=False)

    def test_the_first_page_of_a_package(self):
        self.play("release/FIRST.md", needs_program=False)


@needs_programs
@unittest.skipIf(IS_DOUBLE, "the proved program is not built, so blocks of pages with ring_tool are not pasted")
class WithTheProgram(Pasting):
    def test_the_first_page(self):
        self.play("README.md", needs_program=True)

    def test_the_page_for_those_who_run_it(self):
        self.play("docs/OPERATING.md", needs_program=True)


@needs_programs
class InPython(unittest.TestCase):
    """Blocks in Python that take a lock, each run as a program, at a server of the test."""

    PLACE = re.compile(r'"(?:/run/wozgirt/)?lock\.sock"|"tcp:[^"]*"')

    def test_they_hold_the_lock(self):
        env = dict(os.environ, PYTHONPATH=os.path.join(TOP, "clients", "python"))
        for page in ("docs/OPERATING.md", "docs/CLIENTS.md", "release/FIRST.md", "clients/python/README.md"):
            found = [it.text() for it in Page(TOP, page).blocks if it.text().startswith("from wozgirt import Lock\n")]
            self.assertTrue(found, page)
            for text in found:
                with self.subTest(page), Server(locks="deploy") as server:
                    program = "write_with = print\n" + self.PLACE.sub(lambda _: repr(server.path), text)
                    it = subprocess.run([sys.executable, "-c", program], env=env, capture_output=True, text=True, timeout=PATIENCE, check=False)
                    self.assertEqual((it.returncode, it.stderr, it.stdout), (0, "", "1\n" if "write_with" in text else ""))
                    self.assertEqual(server.operate("stats deploy"), "stats deploy 8 0 1 0 0")


if __name__ == "__main__":
    unittest.main()
