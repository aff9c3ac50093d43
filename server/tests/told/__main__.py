#!/usr/bin/env python3
"""told [SECONDS [SEED]] [--restarts COUNT] [--between PART] [--any-name] [--engine PROGRAM] [--server PROGRAM]: clients with sessions and
without take and release locks while the engine and the server are ended and started, and a model of who was told what says whether they
were told anything wrong. With --between 0.2 they are ended sooner, after a fifth of the time, so that more restarts are made. SIGINT to
this process ends it early, and all is judged.

What happens is drawn by a seed: kills and ends in good order of the engine, of the server, of both; an engine that cannot start; a disk
that is full; clients that never come back; a file of sessions that is written anew after each few lines, or never; a journal of short
segments, or of one. Answers may be on their way at any of these. Each folder serves for a while; then its journal is judged, by `ring_tool check` and `holds` too where the engine is
there. The last lines say what was done, and what is wrong; where the time was over before any restart, that nothing was tried."""

import argparse
import os
import random
import select
import shutil
import signal
import subprocess
import sys
import time
from collections import Counter
from unittest import mock

sys.path.insert(0, os.path.dirname(os.path.dirname(os.path.abspath(__file__))))

# pylint: disable=wrong-import-position
import harness
import journals
from clients import Plain, Session
from harness import ENGINE, RUNNING, SERVER, Server, room
from model import Model, Wrong, judge

LEASE = 2.0
LISTED, OTHERS = "abcdefghijkl", ("x/1", "x/2", "x/3", "x/4")
#: so many restarts are in one folder
EACH = 40

#: an engine that cannot start while there is a file
ENGINE_OF = """#!/bin/sh
[ -e "{folder}/broken" ] && exit 1
exec "{engine}" "$@"
"""


class Scene:
    """The servers in one folder, one after the other, and their clients."""

    def __init__(self, folder, seed, words, full):
        self.folder, self.draw, self.words, self.full = folder, random.Random(seed), words, full
        self.model, self.server = Model(LEASE), None
        self.bytes, self.segment = self.draw.choice((200, 2000, 1 << 24)), self.draw.choice((100, 1 << 16))
        self.names = [*LISTED[:8], *OTHERS] if words.any_name else list(LISTED)
        self.locks = ",".join(f"{name}:3" for name in self.names if name in LISTED) + (",*" if words.any_name else "")
        path = os.path.join(folder, "lock.sock")
        sessions = [Session(f"session {key}", self.model, path, LEASE, key, key % 3 == 0) for key in range(1, 8)]
        self.clients = [*sessions, *(Plain(f"plain {i}", self.model, path, LEASE) for i in range(4))]
        self.engine = os.path.join(folder, "engine")
        with open(self.engine, "w", encoding="utf-8") as file:
            file.write(ENGINE_OF.format(folder=folder, engine=words.engine))
        os.chmod(self.engine, 0o700)

    def path(self, name):
        return os.path.join(self.folder, name)

    def start(self):
        """A server; it may be that the engine of the one before has not ended yet."""
        of_disk = {"LD_PRELOAD": self.full, "FULL_WHILE": self.path("full")} if self.full else {}
        for tried in range(8):
            try:
                with mock.patch.dict(os.environ, of_disk):
                    self.server = Server("--session-bytes", str(self.bytes), "--segment", str(self.segment), folder=self.folder, locks=self.locks,
                                         lease=str(LEASE), faults=False, engine=self.engine)
                return
            except RuntimeError:
                RUNNING.pop()
                if tried == 7:
                    raise
                time.sleep(0.02)

    def pump(self, seconds):
        """Clients ask and hear for this time."""
        end = time.monotonic() + seconds
        while True:
            for client in self.draw.sample(self.clients, len(self.clients)):
                self.one(client)
            if time.monotonic() >= end:
                return
            socks = [client.line.sock for client in self.clients if client.line]
            select.select(socks, [], [], 0.002)

    def one(self, client):
        """One client hears, and asks; one that has lost its connection comes again."""
        if client.line is None:
            try:
                client.come()
            except OSError:
                return None
        if not client.pump():
            return client.lose(self.ended + LEASE)
        if client.line and self.draw.random() < 0.6:
            self.ask(client)
        if client.line:
            client.keep()
        return None

    def ask(self, client):
        """One client asks something, if it may."""
        if client.is_ready():
            wish = ["leave"] if self.draw.random() < 0.01 else client.wish(self.draw, self.names)
            if wish:
                client.say(wish)

    def forget_some(self):
        """Now and then a client never comes back, and another one comes."""
        for client in self.clients:
            if client.line and client.is_ready() and self.draw.random() < 0.03:
                if client.pump() and client.line and client.is_ready():
                    client.vanish() if isinstance(client, Session) else client.close()

    def hear_the_rest(self):
        """What a server that is gone has said."""
        for client in self.clients:
            if client.line:
                client.pump()
            if client.line:
                client.lose(self.ended + LEASE)

    def disturb(self):
        """One restart: what was done."""
        kinds = [("server", "KILL"), ("server", "TERM"), ("engine", "KILL"), ("engine", "TERM"), ("both", "KILL"), ("engine, server", "KILL"),
                 ("broken", "KILL"), ("broken", "TERM"), *([("full", "KILL")] if self.full else [])]
        what, name = self.draw.choice(kinds)
        for client in self.clients:
            if client.line:
                self.ask(client)
        time.sleep(self.draw.choice((0, 0, 0.0003, 0.001)))  # some answers are on their way
        self.ended = time.monotonic()
        {"server": self.restart, "engine": self.end_engine, "both": self.end_both, "engine, server": self.end_one_after_the_other,
         "broken": self.break_engine, "full": self.fill}[what](name)
        self.model.counts["restarts"] += 1
        return f"{what} {name}"

    def kill(self, process, name):
        try:
            os.kill(process, getattr(signal, "SIG" + name))
        except (TypeError, ProcessLookupError):
            pass  # it ended

    def end_server(self, name):
        """The server ends by this signal, and all that it said is heard."""
        self.server.process.send_signal(getattr(signal, "SIG" + name))
        while self.server.process.poll() is None:
            for client in self.clients:
                if client.line:
                    client.pump()
            time.sleep(0.001)
        RUNNING.remove(self.server)
        self.hear_the_rest()

    def restart(self, name):
        self.end_server(name)
        self.start()

    def end_engine(self, name):
        self.kill(self.server.engine_number(), name)
        self.pump(self.words.between * self.draw.uniform(0, 0.1))

    def end_both(self, name):
        """The server, and an engine that has not ended by itself."""
        engine = self.server.engine_number()
        self.server.process.send_signal(signal.SIGKILL)
        self.kill(engine, "KILL")
        self.restart(name)

    def end_one_after_the_other(self, name):
        """The server, just after its engine has ended, or while that starts."""
        self.kill(self.server.engine_number(), "KILL")
        time.sleep(self.draw.choice((0, 0.001, 0.01, 0.05)))
        self.restart(name)

    def break_engine(self, name):
        """The engine cannot start, so the server ends, or is killed."""
        with open(self.path("broken"), "w", encoding="ascii"):
            pass
        self.kill(self.server.engine_number(), "KILL")
        self.pump(self.draw.uniform(0, 0.05))
        self.end_server(name)
        os.remove(self.path("broken"))
        self.start()

    def fill(self, name):
        """Nothing can be written for a moment. Of what clients were told meanwhile nothing is promised."""
        with open(self.path("full"), "w", encoding="ascii"):
            pass
        self.pump(self.draw.uniform(0, 0.05))
        if self.draw.random() < 0.5:
            self.kill(self.server.engine_number(), "KILL")
            self.pump(self.draw.uniform(0, 0.02))
        self.end_server(name)
        os.remove(self.path("full"))
        for client in self.clients:
            if isinstance(client, Session) and client.heard_at >= self.ended:
                client.vanish()
        self.start()

    def run(self, count):
        """So many restarts, or until the end; what was done, and what is wrong."""
        done = {}
        self.ended = time.monotonic()
        self.start()
        try:
            while self.model.counts["restarts"] < count and time.monotonic() < self.words.end:
                self.pump(self.words.between * self.draw.choice((0.01, 0.03, 0.05, 0.1, 0.02)))
                if self.draw.random() < 0.04 * self.words.between:
                    self.pump(1.5 * LEASE)
                self.forget_some()
                what = self.disturb()
                done[what] = done.get(what, 0) + 1
            self.pump(0.5)
            self.ended = time.monotonic()
            self.end_server("TERM")
        except (Wrong, RuntimeError) as wrong:  # or the server does not come up
            return done, [str(wrong)]
        return done, judge(list(journals.holds(self.server.journal)), self.model) + self.judge_by_engine()

    def judge_by_engine(self):
        """What `check` and `holds` say, where the engine is there."""
        if os.path.basename(self.words.engine) == "engine-double":
            return []
        checked, listed = (subprocess.run([self.words.engine, command, self.server.journal], capture_output=True, text=True, check=False).stdout
                           for command in ("check", "holds"))
        wrong = [] if checked.startswith("legal ") else [f"check: {checked.strip()[:300]}"]
        found = {}
        for line in listed.splitlines():
            words = line.split(" ")
            if words[0] == "lock":
                found[words[1], int(words[3])] = int(words[5])
        return wrong + [f"holds: {client} was told {lock} {token} for {label}, and it has {found.get((lock, token))}"
                        for (lock, token), (client, label) in self.model.told.items() if found.get((lock, token)) != label]


def made_full(folder):
    """The library that makes a disk full, or nothing where no compiler is there."""
    library = os.path.join(folder, "full.so")
    source = os.path.join(os.path.dirname(os.path.abspath(__file__)), "full.c")
    compiler = shutil.which("cc")
    if not compiler or subprocess.run([compiler, "-shared", "-fPIC", "-o", library, source, "-ldl"], check=False).returncode:
        return None
    return library


def parsed():
    """The words of the command line."""
    parser = argparse.ArgumentParser("told")
    parser.add_argument("seconds", nargs="?", type=float, default=30)
    parser.add_argument("seed", nargs="?", type=int, default=random.randrange(1 << 32))
    parser.add_argument("--restarts", type=int, default=1 << 30)
    parser.add_argument("--between", type=float, default=1.0)
    parser.add_argument("--any-name", action="store_true")
    parser.add_argument("--engine", default=ENGINE)
    parser.add_argument("--server", default=SERVER)
    return parser.parse_args()


def main():
    words, begun = parsed(), time.monotonic()
    words.end = begun + words.seconds
    signal.signal(signal.SIGINT, lambda *_: setattr(words, "end", 0))
    harness.SERVER = words.server
    sums, done, wrong, folders = Counter(), Counter(), [], 0
    with room("told") as top:
        full = made_full(top)
        while not wrong and time.monotonic() < words.end and sums["restarts"] < words.restarts:
            folder = os.path.join(top, str(folders))
            os.mkdir(folder)
            scene = Scene(folder, f"{words.seed} {folders}", words, full)
            was_done, wrong = scene.run(min(EACH, words.restarts - sums["restarts"]))
            done.update(was_done)
            sums.update(scene.model.counts)
            folders += 1
            shutil.rmtree(folder, ignore_errors=True)  # where something is wrong its server may still be there
    did = ", ".join(f"{what} {count}" for what, count in sorted(done.items()))
    print(f"seed {words.seed} engine {os.path.basename(words.engine)} folders {folders} in {time.monotonic() - begun:.0f} s; "
          + ", ".join(f"{what} {count}" for what, count in sums.items()) + f"; {did}")
    for line in wrong[:5]:
        print(line)
    if not wrong and not sums["restarts"]:
        print("skipped: restarts beside a model: the time was over before the first one")
    print(f"{int(not wrong and sums['restarts'] > 0)} passed, {int(bool(wrong))} failed")
    return 1 if wrong else 0


if __name__ == "__main__":
    sys.exit(main())
