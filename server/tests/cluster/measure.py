#!/usr/bin/env python3
"""measure.py [SECONDS [ROUNDS]]: in one run, in turns: etcd's puts one by one beside acquires and releases one by one; and the
hand-overs of 64 clients on 16 locks beside those of etcd's lock API and of `etcdctl lock`. Three hosts, as bed.py has them."""

import os
import selectors
import socket
import subprocess
import sys
import tempfile
import threading
import time

from bed import NAMES, Bed, why_not
from etcd_members import ETCDCTL
from wozgirt import Session
from wozgirt.etcd import Member, NoAnswer, coded, place

CLIENTS, LOCKS = 64, [f"l{i}" for i in range(16)]
HERE = os.path.abspath(__file__)


def timed(work, seconds):
    """The times of one call after the other."""
    times, end = [], time.monotonic() + seconds
    while (begun := time.monotonic()) < end:
        work()
        times.append(time.monotonic() - begun)
    return times


def tell(what, times, seconds, each=1):
    """A line; how many a second."""
    times.sort()
    rate = len(times) * each / seconds
    print(f"{what:44} {rate:8.0f}/s   p50 {times[len(times) // 2] * 1e3:6.2f} ms   p99 {times[len(times) * 99 // 100] * 1e3:6.2f} ms", flush=True)
    return rate


def one_by_one(bed, seconds):
    """Puts, and holds, one after the other, at the leader's host; how many a second."""
    lead = bed.members.wait_for_leader()
    member, value = Member([place(bed.members.url(lead))]), coded("x" * 150)
    puts = tell("etcd: puts of 150 bytes", timed(lambda: member.ask("kv/put", {"key": coded("x"), "value": value}), seconds), seconds)
    client = Session(bed.places(NAMES.index(lead)), lease=4)
    calls = tell("acquire and release, each a call", timed(lambda: client.release("l0", client.acquire("l0")), seconds), seconds, 2)
    client.close()
    return puts, calls


class Load:
    """64 clients on 16 locks, in one thread: each gives its lock back as soon as it has it, and asks again."""

    def __init__(self, bed):
        self.selector, self.grants = selectors.DefaultSelector(), 0
        for i in range(CLIENTS):
            sock = socket.create_connection(bed.place(NAMES[i % len(NAMES)]))
            sock.setsockopt(socket.IPPROTO_TCP, socket.TCP_NODELAY, 1)
            sock.sendall(b"session %d\n1 acquire %s 0\n" % (time.monotonic_ns() * 100 + i, LOCKS[i % 16].encode()))
            self.selector.register(sock, selectors.EVENT_READ, [b"", 1, time.monotonic()])

    def run(self, seconds):
        """How many grants there were."""
        end, self.grants = time.monotonic() + seconds, 0
        while (now := time.monotonic()) < end:
            for key, _ in self.selector.select(0.1):
                self.hear(key.fileobj, key.data, now)
        return self.grants

    def hear(self, sock, state, now):
        """What one client is told."""
        *lines, state[0] = (state[0] + sock.recv(65536)).split(b"\n")
        for line in lines:
            words = line.split()
            if words[-3:-2] == [b"granted"]:
                self.grants += 1
                number, state[1], state[2] = state[1], state[1] + 2, now
                sock.sendall(b"ping\n%d release %s %s\n%d acquire %s 0\n" % (number + 1, words[-2], words[-1], number + 2, words[-2]))
            elif words[0] == b"refused" or words[1:2] == [b"refused"]:
                raise RuntimeError(line)

    def close(self):
        """Ends the connections."""
        for key in list(self.selector.get_map().values()):
            key.fileobj.close()


def api(urls, first, count, seconds):
    """COUNT clients of etcd's lock API, as threads; prints how often one of them had its lock."""
    begun, grants, urls = threading.Barrier(count), [0] * count, urls.split(",")

    def work(i):
        member = Member([place(urls[(first + i) % len(urls)])], patience=60)
        lease, name = member.ask("lease/grant", {"TTL": "60"})["ID"], coded(f"lock/{LOCKS[(first + i) % 16]}")
        begun.wait()
        end = time.monotonic() + seconds
        while time.monotonic() < end:
            key = member.ask("lock/lock", {"name": name, "lease": lease})["key"]
            grants[i] += 1
            member.ask("lock/unlock", {"key": key})
        try:
            member.ask("lease/revoke", {"ID": lease})
        except NoAnswer:
            pass  # it ends by itself
    threads = [threading.Thread(target=work, args=(i,)) for i in range(count)]
    [it.start() for it in threads]
    [it.join() for it in threads]
    print(sum(grants))


def of_api(bed, seconds):
    """Its hand-overs in four processes."""
    them = [subprocess.Popen([sys.executable, HERE, "api", bed.members.urls(), str(i * 16), "16", str(seconds)], stdout=subprocess.PIPE, text=True)
            for i in range(4)]
    return sum(int(it.communicate()[0]) for it in them)


def of_etcdctl(bed, seconds, folder):
    """Those of `etcdctl lock NAME COMMAND`, one process after the other for each client."""
    script = 'end=$(($(date +%s) + $1)); while [ "$(date +%s)" -lt "$end" ]; do "$2" --endpoints "$3" lock "$4" true && echo x >>"$5"; done'
    path = tempfile.mkstemp(dir=folder)[1]
    words = [["sh", "-c", script, "sh", str(int(seconds)), ETCDCTL, bed.members.url(NAMES[i % 3]), f"cli/{LOCKS[i % 16]}", path] for i in range(CLIENTS)]
    them = [subprocess.Popen(it, env={**os.environ, "ETCDCTL_API": "3"}, stdout=subprocess.DEVNULL) for it in words]
    begun = time.monotonic()
    time.sleep(seconds)
    with open(path, encoding="ascii") as file:
        count = file.read().count("x")
    taken = time.monotonic() - begun
    [it.wait() for it in them]
    return count / taken


def main(seconds=5.0, rounds=2):
    """All of it."""
    reason = why_not()
    if reason is not None:
        print(f"skipped: {reason}")
        return
    with tempfile.TemporaryDirectory(prefix="wozgirt-measure-") as folder, Bed(folder, checkpoint=100_000, locks=",".join(LOCKS)) as bed:
        bed.start()
        time.sleep(2)
        print(f"cores {os.cpu_count()}, load {os.getloadavg()[0]:.1f}, leader {bed.members.wait_for_leader()}")
        for _ in range(rounds):
            puts, calls = one_by_one(bed, seconds)
            load = Load(bed)
            load.run(1)
            ours = load.run(seconds) / seconds
            load.close()
            time.sleep(2)
            theirs, ctl = of_api(bed, seconds) / seconds, of_etcdctl(bed, seconds, folder)
            print(f"one by one: {calls / puts:.2f} of etcd's puts. {CLIENTS} clients on {len(LOCKS)} locks: {ours:.0f} hand-overs a second, lock API {theirs:.0f}, "
                  f"etcdctl lock {ctl:.1f}: {ours / max(theirs, 1):.1f} and {ours / max(ctl, 0.1):.0f} times", flush=True)


if __name__ == "__main__":
    if sys.argv[1:2] == ["api"]:
        api(sys.argv[2], int(sys.argv[3]), int(sys.argv[4]), float(sys.argv[5]))
    else:
        main(*(kind(word) for kind, word in zip((float, int), sys.argv[1:])))
