"""Times of what a server does, without what a busy machine adds to them."""

import threading
import time


class Waits:
    """For how long the server, its engine and this thread have wanted a processor and had none, as the system counts it, in seconds. What
    somebody waits for is on time if it is so without that: a machine that is busy is late, and that is no fault. On one that has a
    processor for each of them it is nearly nothing. Where two of them wait at once both times count, so on a busy machine a little of the
    server's own delay passes. All that the server answers is the work of its first thread."""

    def __init__(self, server):
        tasks = (server.process.pid, server.engine_number(), threading.get_native_id())
        self.paths = [f"/proc/{task}/schedstat" for task in tasks]

    def look(self):
        """For how long each of them has run, and has waited; nothing of one that has ended, or on a system that does not count."""
        ran, waited = [], []
        for path in self.paths:
            try:
                with open(path, encoding="ascii") as file:
                    words = file.read().split()
            except OSError:
                continue
            ran.append(int(words[0]) / 1e9)
            waited.append(int(words[1]) / 1e9)
        return ran, waited

    def __call__(self):
        return sum(self.look()[1])


class Watch:
    """Measures times by the clock without those waits, and the work that was done meanwhile: for how long the server or its engine ran,
    whichever ran longer. A machine that gives a part of its processors to others, as a virtual one does, takes longer for all that is
    done, and no wait is counted; but the work is no more. Who lets others come before does their work first, so it shows in both."""

    def __init__(self, waits):
        self.waits = waits
        # a processor that is lost while this looks counts as waited for, here and below
        self.before, self.begun = waits.look(), time.monotonic()

    def times(self):
        """By the clock, and of work."""
        time_now = time.monotonic()
        (ran, waited), (ran_before, waited_before) = self.waits.look(), self.before
        by_clock = time_now - self.begun - (sum(waited) - sum(waited_before))
        if len(ran) < len(self.waits.paths):
            return by_clock, by_clock
        return by_clock, max(now - before for now, before in zip(ran[:2], ran_before))
