"""Lives of an engine on a folder: each works under load until it is killed at some record of power.c, and a loss of power is made of that
and of earlier moments."""

import os
import select
import shutil
import signal
import subprocess
from dataclasses import dataclass, field

from .disk import KINDS, LINES, TAKEN, Disk, build, contents, moments, records

SECONDS = 60


@dataclass
class Counts:
    """Of a kind of what is left: how many cuts, how many starts were refused, and where calls stood that nobody had made."""

    cuts: int = 0
    refused: int = 0
    more: int = 0


@dataclass
class Tally:
    """What came of the cuts of a service."""

    kinds: dict = field(default_factory=lambda: {kind: Counts() for kind in KINDS})
    open: int = 0
    told: int = 0
    records: int = 0
    wrong: list = field(default_factory=list)
    is_broken: bool = False

    def cuts(self):
        return sum(it.cuts for it in self.kinds.values())


class Layer:
    """The library of power.c, and which syncs do nothing, and which fail."""

    def __init__(self, path, loses="", fails=""):
        self.path, self.loses, self.fails = path, loses, fails

    def environment(self, folder, log, **more):
        words = {"LD_PRELOAD": self.path, "POWER_FOLDER": folder, "POWER_LOG": log, "POWER_LOSES": self.loses, "POWER_FAILS": self.fails}
        return {**os.environ, **words, **{name: str(value) for name, value in more.items()}}


@dataclass
class Life:
    """What an engine did and told until it was killed."""

    disk: Disk
    records: list
    received: bytes
    errors: bytes

    def told(self, count):
        """What was told with so many records, all that was received with all of them: whole lines."""
        told = b"".join(it.bytes for it in self.records[:count] if it.kind == "a")
        if count == len(self.records) and len(self.received) > len(told):
            told = self.received
        return told[:told.rfind(b"\n") + 1].decode().splitlines()


def read_answers(output, is_done):
    """What comes until it is enough or ends."""
    received = b""
    while not is_done(received):
        if not select.select([output], [], [], SECONDS)[0]:
            raise TimeoutError("no answer comes")
        more = os.read(output.fileno(), 1 << 16)
        if not more:
            break
        received += more
    return received


def live(words, folder, batches, env):
    """Runs the engine: each batch of lines is sent when the one before has its answers. In the end it is killed, if it is not by then."""
    disk = Disk(folder)
    process = subprocess.Popen(words, stdin=subprocess.PIPE, stdout=subprocess.PIPE, stderr=subprocess.PIPE, env=env)
    received = b""
    try:
        for text, is_done in batches:
            process.stdin.write(text.encode())
            process.stdin.flush()
            received += (more := read_answers(process.stdout, is_done))
            if not is_done(more):
                break
    except BrokenPipeError:
        pass  # it is killed
    finally:
        process.send_signal(signal.SIGKILL)
    more, errors = process.communicate(timeout=SECONDS)
    return Life(disk, records(env["POWER_LOG"]), received + more, errors)


class Trial:
    """A service under cuts. `service` has the words of the engine and what is sent, and judges what is recovered."""

    def __init__(self, service, layer, draw, room, each=5):
        self.service, self.layer, self.draw, self.room, self.each = service, layer, draw, room, each
        self.tally, self.number = Tally(), 0
        self.folder = os.path.join(room, "live")
        shutil.rmtree(self.folder, ignore_errors=True)
        os.makedirs(self.folder)
        service.prepare(self.folder)

    def run(self, cuts):
        """So many cuts, or until one is wrong."""
        while self.tally.cuts() < cuts and not self.tally.wrong:
            self.life()
        return self.tally

    def life(self):
        """One life: a few cuts at its moments, and one at its end, from which the next one goes on."""
        log = os.path.join(self.room, "log")
        if os.path.exists(log):
            os.remove(log)
        kill_at = self.draw.choice((self.draw.randint(1, 40), self.draw.randint(1, 400), 0))
        words = self.service.words(self.folder)
        env = self.layer.environment(self.folder, log, POWER_ANSWERS=1, POWER_KILL=kill_at, POWER_KILLS=os.path.basename(words[0]),
                                     POWER_FROM=self.draw.randint(1, 4))
        life = live(words, self.folder, self.service.batches(self.draw), env)
        self.tally.records += len(life.records)
        if life.errors and not self.layer.fails:
            self.tally.wrong.append(f"it is not killed, but ends: {life.errors.decode(errors='replace')}")
        disk, at = life.disk, 0
        for end in [*moments(life.records, self.draw, self.each - 1), len(life.records)]:
            for record in life.records[at:end]:
                disk.go_on(record)
            at = end
            if end < len(life.records):
                self.cut(disk, life.told(end), self.draw.choice(KINDS))
            if self.tally.wrong:
                return  # what was left stays there
        self.compare(disk, life)
        if self.cut(disk, life.told(len(life.records)), self.draw.choice(TAKEN), starts=False) and not self.tally.wrong:
            shutil.rmtree(self.folder)
            os.rename(os.path.join(self.room, "left"), self.folder)
            self.service.adopt(self.folder, life.told(len(life.records)))

    def compare(self, disk, life):
        """The records have all that the engine did: the folder is as it is by them."""
        if disk.whole() != contents(self.folder):
            self.tally.wrong.append("the records are not what was done with the folder")
        told = b"".join(it.bytes for it in life.records if it.kind == "a")
        if not (told.startswith(life.received) or life.received.startswith(told)):
            self.tally.wrong.append("the records are not what was told")

    def cut(self, disk, told, kind, starts=True):
        """A loss of power: what is left has what was told, an engine starts with it, and has it still. Whether that is so."""
        left = os.path.join(self.room, "left")
        shutil.rmtree(left, ignore_errors=True)
        build(disk.left(kind, self.draw), self.folder, left)
        counts = self.tally.kinds[kind]
        counts.cuts += 1
        self.tally.open += disk.is_open()
        self.tally.told += len(told)
        self.note(kind, "left", self.service.judge(left, told, kind))
        refused = starts and self.service.start(left)
        # what a start has left out is not there any more
        then = TAKEN[0] if kind == LINES and self.service.is_folder else kind
        if refused:
            counts.refused += 1
            self.note(kind, "start", [refused] * (then in TAKEN))
        elif starts:
            self.note(kind, "started", self.service.judge(left, told, then, is_started=True))
            counts.more += self.service.extra > 0
        return not refused

    def note(self, kind, when, wrong):
        self.tally.wrong += [f"{self.service.name}, {kind}, {when}: {it}" for it in wrong]
