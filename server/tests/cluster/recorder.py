"""Writes down the log while a run lasts: a host of the list that needs what it has not written, so that the log is shortened."""

import subprocess
import threading
import time

from bed import LOG_PROGRAM

EVERY = 400
# all starts of this name are its own
OWN = 10**9


class Recorder:
    """Writes `POSITION REVISION TEXT` lines to a file; `position` is the last."""

    def __init__(self, urls, path):
        self.urls, self.identity, self.position, self.revision, self.is_over = urls, "-", 0, 0, threading.Event()
        self.process, self.file = None, open(path, "w", encoding="ascii")
        self.threads = [threading.Thread(target=work, daemon=True) for work in (self._read, self._live)]
        [it.start() for it in self.threads]

    def _read(self):
        while not self.is_over.is_set():
            process = subprocess.Popen([LOG_PROGRAM, "--endpoints", self.urls, "--prefix", "locks", "--name", "recorder", "--lease", "10"],
                                       stdin=subprocess.PIPE, stdout=subprocess.PIPE, text=True)
            process.stdin.write(f"known {self.identity} {self.position} {self.revision} {OWN}\n")
            process.stdin.flush()
            self.process = process
            for line in self.process.stdout:
                words = line.rstrip("\n").split(" ", 3)
                if words[0] == "log":
                    self.identity = words[1]
                    self.say(f"follow {self.position} {self.revision}")
                elif words[0] == "entry":
                    self.file.write(" ".join(words[1:]) + "\n")
                    self.position, self.revision = int(words[1]), int(words[2])
                    if self.position % EVERY == 0:
                        self.file.flush()
                        self.say(f"checkpoint {self.position} {self.revision}")

    def _live(self):
        number = 0
        while not self.is_over.wait(2):
            number += 1
            self.say(f"here {number}")

    def say(self, line):
        """A line for the program, if it is there."""
        try:
            self.process.stdin.write(line + "\n")
            self.process.stdin.flush()
        except (OSError, AttributeError, ValueError):
            pass  # it is started again

    def catch_up(self):
        """Waits until nothing has come for a while."""
        last = -1
        while last != self.position:
            last = self.position
            time.sleep(2)

    def end(self):
        """Ends it; the file is whole."""
        self.is_over.set()
        self.process.kill()
        self.process.wait()
        self.threads[0].join(10)
        self.file.close()
