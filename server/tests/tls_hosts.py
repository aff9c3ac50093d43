#!/usr/bin/env python3
"""tls_hosts.py: two hosts, each a network of its own: on one the server with HAProxy in front, on the other its clients, with the
certificates, the rules and the words of docs/OPERATING.md. Which of them gets a lock, and what a cut network does. It needs root, iproute2,
openssl and haproxy; the last line is `N passed, M failed`, and what is not there is skipped."""

import contextlib
import os
import shutil
import subprocess
import sys

import harness
from certificates import Authority
from front import HAPROXY, Front, Tunnel
from harness import BIN, COMMAND, PATIENCE, TOP, Server, engine_of_any_name, room, wait_until

NEAR, FAR = f"wozgirt-near-{os.getpid()}", f"wozgirt-far-{os.getpid()}"
HOST, CLIENTS, PORT = "10.78.0.1", "10.78.0.2", 7001
PLACE = f"tls:{HOST}:{PORT}"
RULES = "lock deploy: cert:build-* %ops\nlock *: *\n"
#: a program of a user: a lock by its name, with the files of the variables
TAKE = f"""
import sys
from wozgirt import Lock, LockError
try:
    with Lock("{PLACE}", sys.argv[1], wait={PATIENCE}) as token:
        print("token", token)
except LockError as refused:
    print(type(refused).__name__, refused)
"""
#: a client that shows a session's key
SHOW = f"""
import socket, sys
from wozgirt import Tls
plain = socket.create_connection(("{HOST}", {PORT}), {PATIENCE})
with Tls().context().wrap_socket(plain, server_hostname="{HOST}") as sock:
    sock.sendall(sys.argv[1].encode() + b"\\n")
    print(sock.makefile().readline().rstrip())
    sys.stdout.flush()
    sys.stdin.read()
"""
COUNTS = {True: 0, False: 0}


def check(what, wanted, got):
    COUNTS[wanted == got] += 1
    if wanted != got:
        print(f"FAILED: {what}\nwanted: {wanted!r}\ngot: {got!r}", flush=True)


def run(*words):
    subprocess.run(words, check=True, capture_output=True)


def why_not():
    if os.getuid() != 0:
        return "this is not root"
    for it, path in (("ip", shutil.which("ip")), ("openssl", shutil.which("openssl")), ("haproxy", HAPROXY)):
        if not path:
            return f"there is no {it}"
    return harness.why_not()


class NoNetwork(Exception):
    """The system has none to give."""


def lay_cable():
    for it in (NEAR, FAR):
        run("ip", "netns", "add", it)
        run("ip", "-n", it, "link", "set", "lo", "up")
    run("ip", "link", "add", "cable", "netns", NEAR, "type", "veth", "peer", "name", "cable", "netns", FAR)
    for it, address in ((NEAR, CLIENTS), (FAR, HOST)):
        run("ip", "-n", it, "address", "add", address + "/24", "dev", "cable")
        run("ip", "-n", it, "link", "set", "cable", "up")


@contextlib.contextmanager
def networks():
    """Two, with a cable between them."""
    try:
        try:
            lay_cable()
        except subprocess.CalledProcessError as fault:
            raise NoNetwork from fault
        yield
    finally:
        for it in (NEAR, FAR):
            subprocess.run(["ip", "netns", "delete", it], capture_output=True, check=False)


class Near:
    """The clients' host."""

    def __init__(self, cacert):
        self.cacert = cacert

    def begin(self, words, certificate=None):
        named = {} if certificate is None else {"WOZGIRT_CERT": certificate}
        env = dict(os.environ, WOZGIRT_CACERT=self.cacert, PYTHONPATH=os.path.join(TOP, "clients", "python"), **named)
        return subprocess.Popen(["ip", "netns", "exec", NEAR, *words], env=env, stdin=subprocess.PIPE, stdout=subprocess.PIPE,
                                stderr=subprocess.STDOUT, text=True)

    def does(self, *words, certificate=None):
        return self.begin(words, certificate).communicate(timeout=PATIENCE * 2)[0].rstrip("\n")

    def takes(self, lock, certificate):
        return self.does(sys.executable, "-c", TAKE, lock, certificate=certificate)


def who_gets_a_lock(near, authority, other):
    alice, bob, mallory = authority.of_client("build-1"), authority.of_client("bob"), other.of_client("build-1")
    check("a client gets its lock by its name in the rules", "token 1", near.takes("deploy", alice))
    check("one without a certificate gets none", "NotPermitted permission: deploy", near.takes("deploy", None))
    check("nor one of another name", "NotPermitted permission: deploy", near.takes("deploy", bob))
    check("both get one that is for all", ["token 2", "token 3"], [near.takes("other", it) for it in (None, bob)])
    check("one of another authority does not get in",
          f"LockLost {PLACE}: the server refuses this client's certificate: tlsv1 alert unknown ca", near.takes("other", mallory))
    return alice, bob


def who_has_a_session(near, server, alice, bob):
    holder = near.begin([sys.executable, "-c", SHOW, "session 4711"], alice)
    check("a session", "session 4711 0 alone", holder.stdout.readline().rstrip())
    clients = [line for line in server.operate("clients", 2).splitlines() if f"{CLIENTS}:" in line]
    check("the operator sees who it is, and the client's address", 1, sum("cert:build-1" in line for line in clients))
    for it in (bob, None):
        check("another one with its key gets none", "refused session", near.does(sys.executable, "-c", SHOW, "session 4711", certificate=it))
    holder.stdin.close()
    holder.wait(PATIENCE)
    holder.stdout.close()
    check("its own client has it again", "session 4711 0 alone", near.does(sys.executable, "-c", SHOW, "session 4711", certificate=alice))


def what_a_cut_does(near, folder, server, alice):
    Tunnel.before = ["ip", "netns", "exec", NEAR]
    with Tunnel(folder, HOST, PORT, WOZGIRT_TUNNEL_CERT=alice, WOZGIRT_TUNNEL_CA=near.cacert) as tunnel:
        take = [COMMAND, "lock", "--socket", tunnel.socket, "--lease", "4", "deploy", "--", "sh", "-c"]
        check("wozgirt has the tunnel's certificate", "token 2", near.does(*take, "echo token $WOZGIRT_TOKEN"))
        holder = near.begin([*take, "echo token $WOZGIRT_TOKEN; exec sleep 1000"])
        check("a command holds the lock", "token 3", holder.stdout.readline().rstrip())
        run("ip", "-n", NEAR, "link", "set", "cable", "down")
        said = holder.communicate(timeout=PATIENCE)[0].rstrip("\n")
        check("it is ended when the network is cut", ("wozgirt: the lock is lost (the server does not answer); COMMAND is ended", 75),
              (said, holder.returncode))
        wait_until(lambda: "went (lease)" in server.text_of_log())
        run("ip", "-n", NEAR, "link", "set", "cable", "up")
        check("and the next client gets the lock", "token 4", near.takes("deploy", alice))


@contextlib.contextmanager
def far(folder, authority):
    """The server's host: the server, and HAProxy in front."""
    harness.SERVER, rules, door = (os.path.join(folder, it) for it in ("far-server", "rules", "proxied.sock"))
    for path, text in ((rules, RULES), (harness.SERVER, f'#!/bin/sh\nexec ip netns exec {FAR} {BIN}/wozgirt-server "$@"\n')):
        with open(path, "w", encoding="utf-8") as file:
            file.write(text)
    os.chmod(harness.SERVER, 0o755)
    Front.before = ["ip", "netns", "exec", FAR]
    certificate = authority.of_server(HOST, f"IP:{HOST}")
    with Server("--proxied", door, "--rules", rules, locks="deploy,*", engine=engine_of_any_name()) as server, \
            Front(folder, PORT, host=HOST, WOZGIRT_TLS_CERT=certificate, WOZGIRT_TLS_CA=authority.path, WOZGIRT_TLS_SERVER=door):
        yield server


def try_all():
    with room("hosts") as folder:
        os.mkdir(folder + "/other")
        authority, other = Authority(folder), Authority(folder + "/other")
        with far(folder, authority) as server:
            near = Near(authority.path)
            alice, bob = who_gets_a_lock(near, authority, other)
            who_has_a_session(near, server, alice, bob)
            what_a_cut_does(near, folder, server, alice)


def main():
    why = why_not()
    try:
        if not why:
            with networks():
                try_all()
    except NoNetwork:
        why = "no network can be made"
    if why:
        print(f"skipped: two hosts with TLS between them, since {why}")
    print(f"{COUNTS[True]} passed, {COUNTS[False]} failed")
    sys.exit(COUNTS[False] > 0)


if __name__ == "__main__":
    main()
