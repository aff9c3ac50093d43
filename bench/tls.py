#!/usr/bin/env python3
"""tls.py [ROUNDS [SECONDS]]: what TLS costs: hand-overs of 64 clients on one lock, and how long one client's acquire takes, over TCP and
over TLS through HAProxy as the package has it, without syncs and with them; the same with WOZGIRT_TLS_AWAKE; and of etcd with TLS. The
clients are in C with OpenSSL, which cost least; and then those of the package in Python. All in one run, in turns: the medians of ROUNDS
(5) of SECONDS (2), on this host. The engine is that of the tests. It needs a C compiler, OpenSSL's headers and haproxy; etcd is left out
where it is not installed."""

import contextlib
import os
import re
import shutil
import socket
import statistics
import subprocess
import sys
import time

TOP = os.path.dirname(os.path.dirname(os.path.abspath(__file__)))
sys.path.insert(0, os.path.join(TOP, "server", "tests"))

from certificates import Authority  # noqa: E402
from front import Front  # noqa: E402
from grants import Synced  # noqa: E402
from harness import ENGINE, PATIENCE, Server, room, wait_until  # noqa: E402

#: a client of the package in Python
PYTHON = """
import sys
from wozgirt import Client, Tls
place, cacert, cert = sys.argv[1:]
with Client(place, tls=Tls(cacert or None, cert or None)) as client:
    while True:
        client.release("a", client.acquire("a"))
"""
RESULT = re.compile(r"handovers/s (\d+) p50_us ([\d.]+) p99_us ([\d.]+)")


def free_port():
    with socket.socket() as it:
        it.bind(("127.0.0.1", 0))
        return it.getsockname()[1]


class Etcd:
    """One member, by TLS, that takes certificates of the authority; a context manager."""

    def __init__(self, folder, authority, certificate):
        self.port, peer = free_port(), free_port()
        place, peers = f"https://127.0.0.1:{self.port}", f"http://127.0.0.1:{peer}"
        with open(folder + "/etcd.log", "wb") as log:
            self.process = subprocess.Popen(
                ["etcd", "--data-dir", folder + "/etcd", "--listen-client-urls", place, "--advertise-client-urls", place, "--listen-peer-urls", peers,
                 "--initial-advertise-peer-urls", peers, "--initial-cluster", f"default={peers}", "--cert-file", certificate, "--key-file",
                 certificate, "--trusted-ca-file", authority, "--client-cert-auth"], stdout=log, stderr=log)
        wait_until(self.listens)
        time.sleep(1)  # until it leads

    def listens(self):
        try:
            socket.create_connection(("127.0.0.1", self.port), PATIENCE).close()
            return True
        except OSError:
            return False

    def __enter__(self):
        return self

    def __exit__(self, *_):
        self.process.terminate()
        self.process.wait()


def measured(program, peer, clients, seconds, port, files):
    """Hand-overs a second, and how long an acquire takes: half of them, and 99 of 100, at most."""
    done = subprocess.run([program, peer, str(clients), str(seconds), str(port), *files], capture_output=True, text=True, check=True)
    return tuple(float(it) for it in RESULT.fullmatch(done.stdout.rstrip("\n")).groups())


def in_python(server, clients, seconds, place, files):
    """Hand-overs a second of so many clients of the package in Python, a process each."""
    words = [sys.executable, "-c", PYTHON, place, *(files or ["", ""])]
    env = dict(os.environ, PYTHONPATH=os.path.join(TOP, "clients", "python"))
    processes = [subprocess.Popen(words, env=env) for _ in range(clients)]
    try:
        wait_until(lambda: server.waiters("a") >= clients - 2)
        before, begun = granted(server), time.monotonic()
        time.sleep(seconds)
        return (granted(server) - before) / (time.monotonic() - begun)
    finally:
        for it in processes:
            it.kill()
            it.wait()


def granted(server):
    return int(server.operate("stats a").split()[4])


def print_medians(found):
    for (name, clients), rounds in found.items():
        rate, *times = (statistics.median(it) for it in zip(*rounds))
        shown = "".join(f" {what} {it:8.1f}" for what, it in zip(("p50_us", "p99_us"), times))
        print(f"{name:34} clients {clients:2} handovers/s {rate:7.0f}{shown}")
    for (name, clients), rounds in found.items():
        tcp = found.get((re.sub("TLS.*", "TCP", name), clients))
        if "TLS" in name and tcp:
            ratios = [tls[0] / it[0] for tls, it in zip(rounds, tcp)]
            print(f"{name}, {clients} clients: {statistics.median(ratios):.2f} of the rate over TCP ({min(ratios):.2f} to {max(ratios):.2f})")


class Servers:
    """One with syncs or without, reached over TCP and over TLS; a context manager."""

    def __init__(self, kind, what, folder, authority, certificate):
        self.stack, self.what, self.tcp, self.folder = contextlib.ExitStack(), what, free_port(), f"{folder}/{what}"
        os.mkdir(self.folder)
        door = f"{self.folder}/proxied.sock"
        self.files = {"WOZGIRT_TLS_CERT": certificate, "WOZGIRT_TLS_CA": authority, "WOZGIRT_TLS_SERVER": door}
        self.server = self.stack.enter_context(kind("--tcp", f"127.0.0.1:{self.tcp}", "--proxied", door, locks="a", folder=self.folder))
        self.front = self.stack.enter_context(Front(self.folder, free_port(), **self.files))

    def ways(self, files):
        """Each with its port; HAProxy that stays awake is there only while it is measured."""
        yield f"{self.what}: TCP", self.tcp, []
        yield f"{self.what}: TLS", self.front.port, files
        with Front(self.folder, free_port(), WOZGIRT_TLS_AWAKE="1", **self.files) as front:
            yield f"{self.what}: TLS, awake", front.port, files

    def __enter__(self):
        return self

    def __exit__(self, *_):
        self.stack.close()


def a_round(found, program, servers, etcd, files, seconds):
    for it in servers:
        for name, port, given in it.ways(files):
            for clients in (64, 1):
                found.setdefault((name, clients), []).append(measured(program, "wozgirt", clients, seconds, port, given))
    for name, place, given in (("Python: TCP", f"tcp:127.0.0.1:{servers[0].tcp}", []), ("Python: TLS", servers[0].front.place, files)):
        found.setdefault((name, 64), []).append((in_python(servers[0].server, 64, seconds, place, given),))
    if etcd:
        for clients in (64, 1):
            found.setdefault(("etcd, TLS, synced", clients), []).append(measured(program, "etcd", clients, seconds, etcd.port, files))


def main():
    rounds, seconds = (*map(float, sys.argv[1:]), *(5, 2)[len(sys.argv) - 1:])
    found, begun = {}, os.getloadavg()[0]
    with room("tls") as folder, contextlib.ExitStack() as stack:
        program = folder + "/clients"
        subprocess.run(["cc", "-O2", "-o", program, f"{TOP}/bench/tls_clients.c", "-lssl", "-lcrypto", "-pthread"], check=True)
        authority = Authority(folder)
        certificate, files = authority.of_server(), [authority.path, authority.of_client("bench")]
        servers = [stack.enter_context(Servers(kind, what, folder, authority.path, certificate))
                   for kind, what in ((Server, "no syncs"), (Synced, "synced"))]
        both = authority.of_server("etcd", usage="serverAuth,clientAuth")  # its gateway is a client of it
        etcd = stack.enter_context(Etcd(folder, authority.path, both)) if shutil.which("etcd") else None
        for _ in range(int(rounds)):
            a_round(found, program, servers, etcd, files, seconds)
    print(f"engine {os.path.basename(ENGINE)}, {int(rounds)} rounds of {seconds:g} s, load {begun:.1f} before and {os.getloadavg()[0]:.1f} after")
    print_medians(found)


if __name__ == "__main__":
    main()
