#!/usr/bin/env python3
"""first_lock.py [P]: how long the first page takes to a lock. It clones this repository's HEAD, and runs the blocks of the page's first
section there, as printed, in one shell. It says after how many seconds, from the beginning of the clone, the programs were made, the
first token was printed, and the last block had ended, with the processor seconds of all; and, with P of `bench/unit.sh`, how many P
that is. Its status is 1 if something else was printed than the page says. Needs what the page needs, and git."""
import os
import resource
import subprocess
import sys
import tempfile
import time

TOP = os.path.dirname(os.path.dirname(os.path.abspath(__file__)))
sys.dont_write_bytecode = True
sys.path.insert(0, f"{TOP}/tools")

from page import Page

PAGE, SECTION, PLAYED = "README.md", "## A first lock in three minutes", "played: bench/first_lock.py"
MARK = "-- made --"


def blocks_of(page):
    """The lines that make the programs, and those commands that come after them, with what each prints."""
    blocks = [it for it in page.blocks if it.section == SECTION]
    making = [it.text() for it in blocks if it.mark == PLAYED]
    shown = [it for block in blocks if not block.mark for it in block.sessions()[1]]
    if len(making) != 1 or not shown:
        sys.exit(f"{PAGE} has no section `{SECTION}` with one block that is {PLAYED}")
    return making[0], [command for command, _ in shown], "".join(text.lstrip("\n") for _, text in shown).strip("\n").split("\n")


def played(folder, making, commands):
    """Runs all in one shell. Returns the lines that it printed after the programs were made, each with the time of day, and that time."""
    lines = [making, f"echo '{MARK}'\n", *(f"{it}\n" for it in commands), "kill %?wozgirt-server; wait\n"]
    shell = subprocess.Popen(["bash", "--norc"], cwd=folder, stdin=subprocess.PIPE, stdout=subprocess.PIPE, text=True)
    shell.stdin.write("".join(lines))
    shell.stdin.close()
    printed, made = [], None
    for line in shell.stdout:
        if line == f"{MARK}\n":
            made = time.time()
        elif made:
            printed.append((time.time(), line.rstrip("\n")))
        else:
            print(line, end="")
    shell.wait()
    return printed, made


def main(unit=None):
    with tempfile.TemporaryDirectory(prefix="first-lock-") as folder:
        begun = time.time()
        subprocess.run(["git", "clone", "-q", TOP, f"{folder}/clone"], check=True)
        making, commands, wanted = blocks_of(Page(f"{folder}/clone", PAGE))
        printed, made = played(f"{folder}/clone", making, commands)
        ended = time.time()
    used = resource.getrusage(resource.RUSAGE_CHILDREN)
    token = next((at for at, line in printed if line.startswith("token ")), None)
    for what, at in (("the programs are made", made), ("the first token", token), ("the end", ended)):
        if at:
            times = f", {(at - begun) / float(unit):.2f} P" if unit else ""
            print(f"{what}: after {at - begun:.0f} s{times}")
    print(f"processor seconds: {used.ru_utime + used.ru_stime:.0f}")
    came = [line for _, line in printed]
    if came != wanted:
        print("wanted:", *wanted, "came:", *came, sep="\n")
    return came != wanted


if __name__ == "__main__":
    sys.exit(main(*sys.argv[1:2]))
