#!/usr/bin/env python3
"""any_name.py PART RING_TOOL FOLDER [NUMBER ..]: what locks of any name cost. FOLDER is made for it, and removed in the end. The parts:

rates [SECONDS [ROUNDS]]: hand-overs a second of a server whose list ends with `*`: of 64 clients and of one, on one lock of the list,
    on one of the list for each client, and on a name that is new each time; in turns, in so many rounds, and the middle of them.
minutes [SECONDS [RATE [PEER ..]]]: so many new names a second (5,000) by 64 clients, for so long (600 s), and the memory of the processes
    meanwhile: of the server with its engine, of Redis and of etcd, one after the other, as far as they are installed.
restarts [NAMES [LINES]]: how long it takes until the first answer comes of an engine, and of a server, that was killed while so many
    names (100,000) were held, by connections or by sessions; and, of an engine, after so many lines more (900,000).
million [NAMES [HELD [SEGMENT]]]: so many names (1,000,000) through an engine, of which HELD (100) are held at once; then `check`.

All but `million` need cargo, and build server/ and bench/locks. Server and engine sync their files, except where `rates` says --no-sync."""
import contextlib
import os
import shutil
import signal
import socket
import statistics
import subprocess
import sys
import threading
import time

TOP = os.path.dirname(os.path.dirname(os.path.abspath(__file__)))
SERVER = os.path.join(TOP, "server", "out", "release", "wozgirt-server")
TARGET = os.path.join(TOP, "bench", "out", "peers", "target")
BENCH = os.path.join(TARGET, "release", "lock_bench")
CLIENTS = 64
TICK = os.sysconf("SC_CLK_TCK")


def build():
    subprocess.run(["cargo", "build", "-q", "--release"], cwd=os.path.join(TOP, "server"), check=True)
    subprocess.run(["cargo", "build", "-q", "--release", "--offline", "--target-dir", TARGET], cwd=os.path.join(TOP, "bench", "locks"), check=True)


# ---- processes

def children(process):
    with open(f"/proc/{process}/task/{process}/children") as file:
        return [int(it) for it in file.read().split()]


def memory_of(process, field="VmRSS"):
    """In MiB."""
    with open(f"/proc/{process}/status") as file:
        return next(int(line.split()[1]) for line in file if line.startswith(field)) / 1024


def cpu_of(process):
    """The processor time that it has had, in seconds."""
    with open(f"/proc/{process}/stat") as file:
        words = file.read().rpartition(")")[2].split()
    return (int(words[11]) + int(words[12])) / TICK


def size_of(folder):
    return sum(os.path.getsize(os.path.join(place, name)) for place, _, names in os.walk(folder) for name in names)


@contextlib.contextmanager
def running(words, **how):
    it = subprocess.Popen(words, **how)
    try:
        yield it
    finally:
        it.kill()
        it.wait()


def wait_until(condition, seconds=60):
    end = time.time() + seconds
    while not condition():
        assert time.time() < end, "it did not come about"
        time.sleep(0.01)


# ---- a server

def connected(path):
    """A socket of a server, as soon as one listens there."""
    while True:
        it = socket.socket(socket.AF_UNIX)
        try:
            it.connect(path)
            return it
        except OSError:
            it.close()
            time.sleep(0.0005)


def say(sock, text, count=1):
    """Sends it, and reads so many lines."""
    sock.sendall(text.encode())
    data = b""
    while data.count(b"\n") < count:
        more = sock.recv(1 << 16)
        assert more, f"the server closed: {data[-200:]}"
        data += more
    return data.decode().splitlines()


@contextlib.contextmanager
def wozgirt(tool, folder, locks, *more):
    """A server that has answered: its socket's path, and its processes by names."""
    os.makedirs(f"{folder}/journal", exist_ok=True)
    path = f"{folder}/lock.sock"
    words = [SERVER, "--engine", tool, "--journal", f"{folder}/journal", "--locks", locks, "--socket", path, *more]
    with open(f"{folder}/log", "ab") as log, running(words, stderr=log) as it:
        with connected(path) as sock:
            assert say(sock, "ping\n") == ["pong"]
        yield path, {"server": it.pid, "engine": next(p for p in children(it.pid) if is_engine(p))}
        it.terminate()
        it.wait()


def is_engine(process):
    with open(f"/proc/{process}/cmdline", "rb") as file:
        return b"\0locks\0" in file.read()


def bench_words(peer, clients, locks, seconds, address, *rate):
    return [BENCH, peer, str(clients), str(locks), str(seconds), address, *map(str, rate)]


def numbers(said):
    """What lock_bench says, by its words."""
    words = said.split()
    return {name: float(value) for name, value in zip(words[1::2], words[2::2])}


# ---- rates

LOADS = {
    "64 clients, one lock": ("wozgirt", CLIENTS, 1),
    "64 clients, a new name each time": ("wozgirt-new", CLIENTS, CLIENTS),
    "64 clients, a lock for each": ("wozgirt", CLIENTS, CLIENTS),
    "one client, one lock": ("wozgirt", 1, 1),
    "one client, a new name each time": ("wozgirt-new", 1, 1),
}
COMPARED = [
    ("64 clients, a new name each time", "64 clients, one lock"),
    ("64 clients, a new name each time", "64 clients, a lock for each"),
    ("one client, a new name each time", "one client, one lock"),
]


def rates(tool, folder, seconds="3", rounds="5"):
    build()
    for sync in [["--no-sync"], []]:
        found = {load: [] for load in LOADS}
        times = {load: [] for load in LOADS}
        place = f"{folder}/{'no-sync' if sync else 'sync'}"
        listed = ",".join(f"l{it}" for it in range(CLIENTS))
        with wozgirt(tool, place, f"{listed},*", *sync) as (path, processes):
            for _ in range(int(rounds)):
                for load, words in LOADS.items():
                    before = sum(map(cpu_of, processes.values()))
                    said = subprocess.run(bench_words(*words, seconds, path), stdout=subprocess.PIPE, text=True, check=True).stdout
                    found[load].append(numbers(said)["handovers/s"])
                    times[load].append((sum(map(cpu_of, processes.values())) - before) / float(seconds) / found[load][-1])
        print(*(sync or ["synced"]), f"{rounds} rounds of {seconds} s: hand-overs a second, the middle (the range); processor time of each")
        for load, all_of in found.items():
            middle, cpu = statistics.median(all_of), statistics.median(times[load])
            print(f"  {load}: {middle:,.0f} ({min(all_of):,.0f} to {max(all_of):,.0f}); {cpu * 1e6:.0f} us")
        for new, old in COMPARED:
            each = [one / other for one, other in zip(found[new], found[old])]
            print(f"  {new}, to {old}: {statistics.median(each):.2f} ({min(each):.2f} to {max(each):.2f})", flush=True)


# ---- minutes

@contextlib.contextmanager
def redis(_, folder):
    os.makedirs(folder)
    path = f"{folder}/redis.sock"
    words = ["redis-server", "--port", "0", "--unixsocket", path, "--save", "", "--dir", folder]
    with open(f"{folder}/log", "wb") as log, running(words, stdout=log) as it:
        wait_until(lambda: os.path.exists(path))
        yield path, {"redis": it.pid}


@contextlib.contextmanager
def etcd(_, folder):
    """(etcd keeps each change until it is compacted)"""
    os.makedirs(folder)
    words = ["etcd", "--data-dir", f"{folder}/data", "--log-level", "error", "--listen-client-urls", "http://127.0.0.1:12379",
             "--advertise-client-urls", "http://127.0.0.1:12379", "--listen-peer-urls", "http://127.0.0.1:12380",
             "--auto-compaction-mode", "revision", "--auto-compaction-retention", "1000"]
    with open(f"{folder}/log", "wb") as log, running(words, stdout=log, stderr=log) as it:
        time.sleep(3)
        yield "127.0.0.1:12379", {"etcd": it.pid}


PEERS = {"wozgirt": lambda tool, folder: wozgirt(tool, folder, "*"), "redis": redis, "etcd": etcd}
PROGRAMS = {"wozgirt": "sh", "redis": "redis-server", "etcd": "etcd"}


def minutes(tool, folder, seconds="600", rate="5000", *peers):
    build()
    for peer in peers or PEERS:
        if not shutil.which(PROGRAMS[peer]):
            print(f"skipped: {PROGRAMS[peer]} is not installed")
            continue
        with PEERS[peer](tool, f"{folder}/{peer}") as (address, processes):
            begun = {name: (memory_of(it), cpu_of(it)) for name, it in processes.items()}
            words = bench_words(f"{peer}-new", CLIENTS, CLIENTS, seconds, address, rate)
            with subprocess.Popen(words, stdout=subprocess.PIPE, text=True) as bench:
                samples = watch(bench, processes, float(seconds))
                said = bench.stdout.read()
            assert bench.returncode == 0, bench.returncode
            names = numbers(said)["handovers/s"] * float(seconds)
            print(said.strip())
            print(f"  {peer}: {names:,.0f} names; {size_of(f'{folder}/{peer}') / 1e6:,.0f} MB on disk")
            for name, it in processes.items():
                memory, cpu = begun[name]
                print(f"  {name}: {memory:.0f} MiB before; in each tenth, the least and the most: {tenths(samples[name])}; "
                      f"at most {memory_of(it, 'VmHWM'):.0f}; {(cpu_of(it) - cpu) / names * 1e6:.0f} us of processor time for each name", flush=True)
        if peer == "wozgirt":
            print(" ", checked(tool, f"{folder}/{peer}/journal"), flush=True)


def watch(bench, processes, seconds):
    """The memory of each process, twice a second, until the measure ends; by the time."""
    samples, begun = {name: [] for name in processes}, time.time()
    while bench.poll() is None:
        for name, it in processes.items():
            samples[name].append(((time.time() - begun) / seconds, memory_of(it)))
        time.sleep(0.5)
    return samples


def tenths(samples):
    """The least and the most of each tenth of the way."""
    parts = [[size for at, size in samples if min(9, int(at * 10)) == tenth] for tenth in range(10)]
    return ", ".join(f"{min(part):.0f}-{max(part):.0f}" if part else "none" for part in parts)


def checked(tool, journal):
    """What `check` says of a folder, and how long it takes."""
    begun = time.time()
    said = subprocess.run([tool, "check", journal], stdout=subprocess.PIPE, stderr=subprocess.STDOUT, text=True, check=False)
    assert said.returncode == 0, said.stdout
    return f"check: {said.stdout.partition(' head ')[0].strip()}; {time.time() - begun:.1f} s, {size_of(journal) / 1e6:,.0f} MB"


# ---- restarts

def engine_words(tool, folder, most):
    return [tool, "locks", "--journal", folder, "--locks", "*", "--most-names", str(most), "--sync"]


@contextlib.contextmanager
def engine(words):
    with running(words, stdin=subprocess.PIPE, stdout=subprocess.PIPE, bufsize=0) as it:
        yield it


def ask_all(it, lines, count):
    """Sends all these lines, and reads the answers."""
    feed = threading.Thread(target=lambda: it.stdin.write("".join(lines).encode()))
    feed.start()
    while count > 0:
        data = it.stdout.read(1 << 18)
        assert data, "the engine ended"
        count -= data.count(b"\n")
    feed.join()


def first_answer(words, line, expected):
    """How long an engine takes from its start until it answers this line, and its processor time."""
    begun = time.time()
    with engine(words) as it:
        it.stdin.write(line)
        said = it.stdout.readline()
        took, cpu = time.time() - begun, cpu_of(it.pid)
        assert said.startswith(expected), said
    return f"the first answer after {took:.2f} s, with {cpu:.2f} s of processor time"


def restarts(tool, folder, names="100000", lines="900000"):
    build()
    names, lines = int(names), int(lines)
    most = 1 << (names - 1).bit_length()
    restart_engine(tool, f"{folder}/journal", names, lines, most)
    for kind in ["connections", "sessions"]:
        restart_server(tool, f"{folder}/{kind}", kind, names, most)


def restart_engine(tool, folder, names, lines, most):
    """Clients hold the names, and the engine is killed again and again."""
    os.makedirs(folder)
    words = engine_words(tool, folder, most)
    with engine(words) as it:
        ask_all(it, (f"{1 + i % 100} acquire n/{i} 7\n" for i in range(names)), names)
        print(f"engine, {names:,} names held, --most-names {most}: {memory_of(it.pid):.0f} MiB")
    asked = b"1 stats n/7\n", b"1 stats n/7 2 0 1 0 "
    for what in ["after their grants", *["again, where its file has a beginning only"] * 5]:
        print(f"engine, killed {what}: {first_answer(words, *asked)}", flush=True)
    if lines:
        with engine(words) as it:
            pairs = (f"1 acquire m/{i} 7\n1 release m/{i} {names + 1 + i}\n" for i in range(lines // 2))
            ask_all(it, pairs, lines // 2 * 2)
        print(f"engine, killed after {lines:,} lines more: {first_answer(words, *asked)}")
    print(" ", checked(tool, folder), flush=True)


def hold_names(path, key, each, kind):
    """A client takes so many names: a session, which holds them when its connection has ended, or a connection, which is returned."""
    sock = connected(path)
    if kind == "sessions":
        say(sock, f"session {key}\n")
    for first in range(0, each, 50):
        numbered = ((f"{1 + i} " if kind == "sessions" else "", i) for i in range(first, min(first + 50, each)))
        asked = [f"{number}acquire n/{key}/{i} 7\n" for number, i in numbered]
        assert all("granted " in it for it in say(sock, "".join(asked), len(asked)))
    return sock


def kill(processes):
    for it in processes.values():
        os.kill(it, signal.SIGKILL)


def restart_server(tool, folder, kind, names, most, clients=100):
    """Clients hold the names, and all is killed."""
    os.makedirs(folder)
    each = names // clients
    more = ["--most-names", str(most), "--most-holds", str(each)]
    with wozgirt(tool, folder, "*", *more) as (path, processes):
        held = [hold_names(path, key, each, kind) for key in range(1, clients + 1)]
        sizes = ", ".join(f"{name} {memory_of(it):.0f} MiB" for name, it in processes.items())
        print(f"{clients * each:,} names held by {clients} {kind}: {sizes}")
        kill(processes)
        [sock.close() for sock in held]
    for what in ["killed", "killed again"]:
        begun = time.time()
        with wozgirt(tool, folder, "*", *more) as (path, processes):
            times = f"the first answer after {time.time() - begun:.2f} s"
            with connected(path) as sock:
                assert say(sock, "try n/1/0 7\n") == ["busy n/1/0"]
                times += f", that of an ask after {time.time() - begun:.2f} s"
            if kind == "sessions":
                with connected(path) as sock:
                    back = say(sock, "session 1\n", 1 + each)
                    assert sum(it.startswith("holds ") for it in back) == each, back[:3]
                    times += f", a session has its {each:,} holds after {time.time() - begun:.2f} s"
            kill(processes)
        print(f"server, {what}: {times}", flush=True)


# ---- a million

def million(tool, folder, names="1000000", held="100", segment="1000000"):
    names, held = int(names), int(held)
    os.makedirs(f"{folder}/journal")
    with open(f"{folder}/lines", "w") as file:
        file.writelines(line for i in range(1, names + held + 1) for line in both(i, names, held))
    words = [*engine_words(tool, f"{folder}/journal", 65536), "--segment", segment]
    begun, samples = time.time(), []
    with open(f"{folder}/lines", "rb") as lines, open(f"{folder}/answers", "wb") as answers:
        with subprocess.Popen(words, stdin=lines, stdout=answers, stderr=subprocess.PIPE, text=True) as it:
            while it.poll() is None:
                with contextlib.suppress(OSError, StopIteration):
                    samples.append((os.fstat(answers.fileno()).st_size, memory_of(it.pid)))
                time.sleep(0.02)
            took, said = time.time() - begun, it.stderr.read().strip()
    assert it.returncode == 0, said
    with open(f"{folder}/answers") as file:
        for i in range(1, names + held + 1):
            for line in told(i, names, held):
                assert file.readline() == line, f"another answer than {line}"
        whole = file.tell()
    print(f"{names:,} names, {held:,} held at once, segments of {segment} lines: {took:.1f} s, {2 * names / took:,.0f} lines a second; {said}")
    print(f"  MiB in each tenth of the answers, the least and the most: {tenths([(at / whole, size) for at, size in samples])}")
    print(" ", checked(tool, f"{folder}/journal"))


def both(i, names, held):
    """The lines about name i, and about the one that has been held for so long. (No ring is repaired, so tokens count the grants.)"""
    client = 1 + i % CLIENTS
    if i <= names:
        yield f"{client} acquire order/{i} 7\n"
    if i > held:
        yield f"{1 + (i - held) % CLIENTS} release order/{i - held} {i - held}\n"


def told(i, names, held):
    """The answers to these."""
    if i <= names:
        yield f"{1 + i % CLIENTS} granted order/{i} {i}\n"
    if i > held:
        yield f"{1 + (i - held) % CLIENTS} released order/{i - held}\n"


def main(part, tool, folder, *numbers_of):
    parts = {it.__name__: it for it in (rates, minutes, restarts, million)}
    tool, folder = os.path.abspath(tool), os.path.abspath(folder)
    shutil.rmtree(folder, ignore_errors=True)
    os.makedirs(folder)
    parts[part](tool, folder, *numbers_of)
    shutil.rmtree(folder)


if __name__ == "__main__":
    main(*sys.argv[1:])
