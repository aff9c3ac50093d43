"""`wozgirt-log`: keeps the log of a lock service in etcd. A `wozgirt-server` runs it, and speaks with it by lines.

The log is the key PREFIX/log: each entry is put over the one before, an entry's position is the key's version, and etcd gives
all versions, in order, to whoever watches the key. Beside it there are PREFIX/identity, drawn when the log began; PREFIX/servers,
whose version is the last incarnation; PREFIX/servers/NAME/INCARNATION, each with a lease; and PREFIX/hosts/NAME, with the position
and the revision up to which this host needs the log no more.

In:   known IDENTITY POSITION REVISION INCARNATION, follow POSITION REVISION, append TEXT, checkpoint POSITION REVISION, here NUMBER
Out:  log IDENTITY INCARNATION, alive NAME:INCARNATION .., entry POSITION REVISION TEXT, kept NUMBER, away NAME SECONDS, full,
      lost other TEXT, lost gone TEXT, taken INCARNATION

`known` comes first: what the server knows of the log from before, `known - 0 0 0` if nothing. TEXT is the rest of the line, of printable
ASCII, spaces and tabs, and may be empty.

Status 0: the end of the input. 1: it cannot continue. 2: usage error. 4: the log is another one, or shorter than it was, or what
is wanted of it is gone."""

from __future__ import annotations

import argparse
import base64
import os
import queue
import re
import select
import sys
import threading
import time
import traceback
from typing import Any, Callable, Dict, List, NoReturn, Optional, Sequence, Set, Tuple, TypeVar

from .crowd import Crowd
from .etcd import Answer, Denied, Member, NoAnswer, NoRoom, Silent, User, below, coded, context, decoded, place, revision_of
from .places import Lost, Place, Taken, alone, claim, compare, identified, is_identity, reaches

T = TypeVar("T")
#: Seconds until all members are tried again, if none of them answers.
PAUSE = 0.1
#: Seconds in which the same is not written to standard error again.
QUIET = 60.0
#: Milliseconds between two looks at whether the first line is done.
LOOK = 500
#: Seconds after its lease until another server of the name is taken for one that is alive.
LATE = 2.0
#: The first line of the input, and the others.
FIRST = re.compile(rb"known (?:-|([!-~]+)) ([0-9]+) ([0-9]+) ([0-9]+)\n")
LINE = re.compile(rb"(?:(append) ([\t -~]*)|(follow|checkpoint) ([0-9]+) ([0-9]+)|(here) ([0-9]+))\n")
#: What cannot be in an entry's line: another than a server put that into the log.
STRANGE = re.compile(rb"[^\t -~]")


class Program:
    """What the threads share: its output, and its end."""

    def __init__(self, words: argparse.Namespace):
        self.prefix, self.name, self.lease, self.away = words.prefix, words.name, words.lease, words.away
        self._places = [place(url) for url in words.endpoints.split(",")]
        is_safe = any(safe for safe, _, _ in self._places)
        self._tls = context(words.cacert, words.cert, words.key) if is_safe else None
        if (words.etcd_user is None) != (words.etcd_password_file is None):
            raise ValueError("--etcd-user and --etcd-password-file go together")
        self._user = User(words.etcd_user, words.etcd_password_file) if words.etcd_user else None
        self._telling = threading.Lock()
        self._noted: Dict[str, float] = {}
        self.appends: "queue.SimpleQueue[bytes]" = queue.SimpleQueue()
        self.heres: "queue.SimpleQueue[int]" = queue.SimpleQueue()
        self.needs: "queue.SimpleQueue[Tuple[int, int]]" = queue.SimpleQueue()
        self.crowd: Optional[Crowd] = None
        self.place = Place(None, 0, 0)
        self.is_begun = threading.Event()

    def key(self, *words: object) -> str:
        """A key of the log."""
        return "/".join(map(str, (self.prefix, *words)))

    def member(self) -> Member:
        """A new connection."""
        return Member(self._places, self._tls, user=self._user)

    def tell(self, *lines: str) -> None:
        """Lines for the server, at once."""
        with self._telling:
            sys.stdout.write("".join(f"{line}\n" for line in lines))
            sys.stdout.flush()

    def note(self, text: object) -> None:
        """A line for the operator, if it was not written for a while."""
        now = time.monotonic()
        if now > self._noted.get(str(text), 0.0):
            self._noted[str(text)] = now + QUIET
            print(f"wozgirt-log: {text}", file=sys.stderr, flush=True)

    def end(self, status: int, why: str = "") -> NoReturn:
        """Ends the process. Nothing is undone in etcd: the lease ends by itself."""
        if why:
            self.note(why)
        os._exit(status)

    def start(self, work: Callable[[], None]) -> None:
        """Does the work in a thread; the process ends with it."""
        def run() -> None:
            try:
                work()
            except Lost as lost:
                self.lose(lost)
            except BrokenPipeError:
                self.end(1, "the server is gone")
            except BaseException:
                traceback.print_exc()
                self.end(1)
        threading.Thread(target=run, daemon=True).start()

    def done(self, member: Member, work: Callable[[Member], T]) -> T:
        """Does the work with one member or another, until it is done. It may have been done more than once."""
        while True:
            try:
                return work(member)
            except NoAnswer as fault:
                self.note(fault)
                if isinstance(fault, NoRoom):
                    self.tell("full")
                if member.turn():
                    time.sleep(PAUSE)

    def lose(self, lost: Lost) -> NoReturn:
        """Ends the process, since the log is not the one that is wanted."""
        try:
            self.tell(f"lost {lost.kind} {STRANGE.sub(b'?', str(lost).encode()).decode()}")
        except BrokenPipeError:
            pass  # the server has ended
        self.end(4, str(lost))


class Keeper:
    """This start's number, and its lease, which is renewed for as long as the server says that it is here."""

    def __init__(self, program: Program, before: int):
        self._program, self._member = program, program.member()
        # the starts of this server, of which some may not have ended for etcd: up to the last before this, and those of this process
        self._before = before
        self._drawn: Set[int] = set()
        self._latest = time.monotonic() + program.lease + LATE
        self.incarnation, self._id, self._kept = self._begin()

    def _begin(self) -> Tuple[int, str, float]:
        while True:
            try:
                self._program.done(self._member, self._compared)
                return self._program.done(self._member, self._begun)
            except Taken as other:
                if time.monotonic() > self._latest:
                    self._program.tell(f"taken {other}")
                    self._program.end(1, f"another server {self._program.name} is alive, start {other}")
                self._program.note(f"another server {self._program.name} may be alive, start {other}")
                time.sleep(PAUSE)

    def _is_own(self, incarnation: int) -> bool:
        return incarnation <= self._before or incarnation in self._drawn

    def _compared(self, member: Member) -> None:
        """The log is the right one, and no other server has this name. Only the identity of a new log is put."""
        program, known = self._program, self._program.place
        known.identity = identified(member, program.key("identity"), known.identity, os.urandom(16).hex())
        compare(member, program.key("log"), *known.get())
        alone(member, program.key("servers", program.name, ""), self._is_own)

    def _begun(self, member: Member) -> Tuple[int, str, float]:
        program = self._program
        conditions = [is_identity(program.key("identity"), program.place.identity or "")]
        said = member.ask("kv/txn", {"compare": conditions, "success": [
            {"request_put": {"key": coded(program.key("servers")), "value": coded(program.name), "prev_kv": True}}]})
        if not said.get("succeeded"):
            raise Lost("other", "it was replaced meanwhile")
        incarnation = int(said["responses"][0]["response_put"].get("prev_kv", {}).get("version", 0)) + 1
        asked = time.monotonic()
        lease = member.ask("lease/grant", {"TTL": str(program.lease)})["ID"]
        self._drawn.add(incarnation)
        claim(member, program.key("servers", program.name, ""), self._is_own, incarnation, conditions, lease)
        return incarnation, lease, asked

    def run(self) -> None:
        """Renews the lease, and reports that, until it is over, by etcd or by the own clock."""
        while True:
            try:
                number = self._program.heres.get(timeout=max(0.0, self._end() - time.monotonic()))
                while not self._program.heres.empty():
                    number = self._program.heres.get()
            except queue.Empty:
                break
            if not self._renewed():
                break
            self._program.tell(f"kept {number}")
        self._program.note("the lease is over")
        if self._program.crowd is not None:
            self._program.crowd.leave()

    def _end(self) -> float:
        return self._kept + self._program.lease

    def _renewed(self) -> bool:
        while (asked := time.monotonic()) < self._end():
            try:
                said = self._member.ask("lease/keepalive", {"ID": self._id})
            except NoAnswer as fault:
                self._program.note(fault)
                if self._member.turn():
                    time.sleep(PAUSE)
                continue
            self._kept = asked
            return int(said.get("TTL", 0)) > 0
        return False


class Reader:
    """Reads the log after a position, and which servers are alive, from one member or another."""

    def __init__(self, program: Program, crowd: Crowd, last: Tuple[int, int]):
        self._program, self._crowd, self._member = program, crowd, program.member()
        self._position, self._revision = last
        # the revision of the first entry, and one before which nothing is wanted
        self._first, self._least = 0, 0
        self._log, self._servers = program.key("log"), program.key("servers", "")

    def run(self) -> None:
        """Reads without an end."""
        self._program.done(self._member, lambda member: compare(member, self._log, self._position, self._revision))
        while True:
            try:
                self._read()
            except Silent:
                pass  # then its answer to the next question shows whether it is there
            except NoAnswer as fault:
                self._program.note(fault)
                if self._member.turn():
                    time.sleep(PAUSE)

    def _look(self) -> Tuple[int, int]:
        """Looks at the log and the servers as they are now; the revisions to watch them from."""
        ranges: List[Answer] = [{"key": coded(self._program.key("identity"))}, {"key": coded(self._log), "keys_only": True},
                                {**below(self._servers), "keys_only": True}]
        said = self._member.ask("kv/txn", {"success": [{"request_range": it} for it in ranges]})
        identity, last, servers = (it["response_range"].get("kvs", []) for it in said["responses"])
        known, (position, known_revision, value) = self._program.place, self._program.place.get()
        if not identity or decoded(identity[0]["value"]) != known.identity:
            raise Lost("other", "it has another identity" if identity else "etcd has no log, or another one's")
        revision, version = revision_of(said), int(last[0]["version"]) if last else 0
        if revision < max(self._revision, known_revision) or version < max(self._position, position):
            raise Lost("other", f"it has {version} entries, and {max(self._position, position)} were read")
        compare(self._member, self._log, position, known_revision, value)
        self._crowd.set({self._who(it) for it in servers})
        if version == self._position:
            self._revision = max(self._revision, revision)
        self._first = int(last[0]["create_revision"]) if last else revision + 1
        return max(self._revision + 1, int(identity[0]["create_revision"]), self._least), revision + 1

    def _who(self, it: Answer) -> str:
        return decoded(it["key"])[len(self._servers):].replace("/", ":")

    def _read(self) -> None:
        """Reads one stream to its end."""
        start, now = self._look()
        asked: List[Answer] = [{"create_request": {"key": coded(self._log), "start_revision": str(start)}},
                               {"create_request": {**below(self._servers), "start_revision": str(now)}}]
        for told in self._member.stream("watch", asked):
            if "compact_revision" in told:
                gone = int(told["compact_revision"])
                if self._position > 0 or gone > self._first:
                    raise Lost("gone", f"the log is gone up to revision {gone}, and {start} is wanted")
                self._least = gone  # what is gone came before the first entry
                return
            if told.get("canceled"):
                raise NoAnswer(f"the watch is cancelled: {told.get('cancel_reason', '')}")
            self._take(told.get("events", []))

    def _take(self, events: List[Answer]) -> None:
        lines = []
        for event in events:
            it, is_there = event["kv"], event.get("type") != "DELETE"
            if decoded(it["key"]) == self._log:
                self._follows(int(it["version"]) if is_there else 0, int(it["mod_revision"]))
                self._program.place.note(self._position, self._revision, it.get("value", ""))
                text = STRANGE.sub(b"?", base64.b64decode(it.get("value", ""))).decode("ascii")
                lines.append(f"entry {self._position} {self._revision} {text}")
            else:
                self._crowd.change(self._who(it), is_there)
        if lines:
            self._program.tell(*lines)

    def _follows(self, position: int, revision: int) -> None:
        """The next entry has to be the next one."""
        if position != self._position + 1 or revision <= self._revision:
            raise Lost("other", f"entry {position}, revision {revision}, follows entry {self._position}, revision {self._revision}")
        self._position, self._revision = position, revision


def place_of(value: str) -> Tuple[int, int]:
    """The position and the revision in a host's key; the log's beginning if there are none."""
    words = decoded(value).split(" ")
    return (int(words[0]), int(words[1])) if len(words) == 2 and all(map(str.isdigit, words)) else (0, 0)


class Shortener:
    """Records for the others what this host needs, and has etcd drop what no host needs."""

    def __init__(self, program: Program, crowd: Crowd, begin: Tuple[int, int]):
        self._program, self._crowd, self._member = program, crowd, program.member()
        self._need = begin

    def run(self) -> None:
        """Looks at the list of hosts after each checkpoint, and now and then."""
        self._program.done(self._member, self._begin)
        while True:
            try:
                self._need = self._program.needs.get(timeout=self._program.away)
                self._program.done(self._member, self._list)
                least = self._least()
                if least > 0:
                    self._program.done(self._member, lambda member: self._compact(member, least))
            except queue.Empty:
                self._least()

    def _begin(self, member: Member) -> None:
        """A host needs the log from where it reads, or from its last checkpoint, which may lie before that."""
        key = coded(self._program.key("hosts", self._program.name))
        found = member.ask("kv/range", {"key": key}).get("kvs", [])
        listed = [place_of(it["value"]) for it in found]
        self._need = min([self._need, *listed], key=lambda it: it[1])
        if listed != [self._need]:
            self._list(member)

    def _list(self, member: Member) -> None:
        """Puts what this host needs, but not into another log."""
        program = self._program
        entry = {"key": coded(program.key("hosts", program.name)), "value": coded("%d %d" % self._need)}
        conditions = [is_identity(program.key("identity"), program.place.identity or "")]
        if not member.ask("kv/txn", {"compare": conditions, "success": [{"request_put": entry}]}).get("succeeded"):
            raise Lost("other", "it was replaced meanwhile")

    def _least(self) -> int:
        """The revision up to which no host needs the log. Names those that are away and need more of it than this one."""
        hosts = self._program.key("hosts", "")
        found = self._program.done(self._member, lambda member: member.ask("kv/range", below(hosts))).get("kvs", [])
        needs = {decoded(it["key"])[len(hosts):]: place_of(it["value"])[1] for it in found}
        for name, revision in sorted(needs.items()):
            away = self._crowd.away(name)
            if revision < self._need[1] and away > self._program.lease:
                self._program.tell(f"away {name} {int(away)}")
        return min(needs.values(), default=0)

    @staticmethod
    def _compact(member: Member, revision: int) -> None:
        try:
            member.ask("kv/compaction", {"revision": str(revision)})
        except Denied as denied:
            if "compacted" not in str(denied):  # else another host was quicker
                raise


def append_all(program: Program) -> None:
    """Puts one entry after the other: the next one is begun only when this one is there, else it might come first. Nothing is put into
    another log, or into one that has fewer entries than were read: etcd cannot get that while a member runs and the connection lasts, so
    the first put over each has the conditions."""
    member, key, verified = program.member(), program.key("log"), 0

    def put(member: Member, value: bytes) -> None:
        nonlocal verified
        entry = {"key": coded(key), "value": coded(value)}
        try:
            if 0 < member.connection == verified:
                member.ask("kv/put", entry)
                return
            position, revision, _ = program.place.get()
            conditions = [is_identity(program.key("identity"), program.place.identity or ""), *reaches(key, position, revision)]
            said = member.ask("kv/txn", {"compare": conditions, "success": [{"request_put": entry}]})
        except Denied as denied:
            if "too large" in str(denied):
                program.end(1, str(denied))
            raise
        if not said.get("succeeded"):
            raise Lost("other", f"it is another one, or has fewer than the {position} entries that were read")
        verified = member.connection
    while True:
        value = program.appends.get()
        program.done(member, lambda it: put(it, value))


def end_with_the_input(program: Program) -> None:
    """Ends the process if its input ends before the first line is done: that line can take as long as etcd is away, and no thread reads
    the input meanwhile. The server's next start needs what this process has inherited."""
    end = select.poll()
    end.register(0, 0)
    while not program.is_begun.is_set():
        if end.poll(LOOK) and not program.is_begun.is_set():
            program.end(0)


def begun(program: Program) -> Keeper:
    """What the first line of the input says is compared with etcd, and this start gets its number."""
    line = sys.stdin.buffer.readline()
    match = FIRST.fullmatch(line)
    if not match:
        program.end(2 if line else 0, f"wrong first line: {line[:80]!r}" if line else "")
    identity, *numbers = match.groups()
    position, revision, before = map(int, numbers)
    program.place = Place(identity.decode() if identity else None, position, revision)
    program.start(lambda: end_with_the_input(program))
    try:
        return Keeper(program, before)
    except Lost as lost:
        program.lose(lost)


def obey(program: Program, crowd: Crowd) -> None:
    """Does what the lines of the input say."""
    follows = False
    for line in sys.stdin.buffer:
        match = LINE.fullmatch(line)
        verb, *words = [it for it in match.groups() if it is not None] if match else [b""]
        if not verb or verb == b"follow" and follows:
            program.end(2, f"wrong line: {line[:80]!r}")
        if verb == b"append":
            program.appends.put(words[0])
        elif verb == b"here":
            program.heres.put(int(words[0]))
        elif verb == b"checkpoint":
            program.needs.put((int(words[0]), int(words[1])))
        else:
            follows, last = True, (int(words[0]), int(words[1]))
            program.start(Reader(program, crowd, last).run)
            program.start(Shortener(program, crowd, last).run)


def name(text: str) -> str:
    """The name of a server."""
    if not re.fullmatch(r"[A-Za-z0-9._-]{1,64}", text):
        raise argparse.ArgumentTypeError(f"letters, digits, dots, dashes and lines below: {text!r}")
    return text


def prefix(text: str) -> str:
    """What the names of the log's keys begin with."""
    if not re.fullmatch(r"[!-~]{1,200}", text) or text.endswith("/"):
        raise argparse.ArgumentTypeError(f"ASCII without spaces, and no / at its end: {text!r}")
    return text


def seconds(text: str) -> int:
    """A time above none."""
    if not text.isdigit() or not 0 < int(text) < 10**6:
        raise argparse.ArgumentTypeError(f"whole seconds: {text!r}")
    return int(text)


def parsed(words: Optional[Sequence[str]]) -> argparse.Namespace:
    """The words of the command line."""
    parser = argparse.ArgumentParser("wozgirt-log", description="Keeps the log of a lock service in etcd. A wozgirt-server runs it.")
    more: Dict[str, Any]
    for word, more in {
            "--endpoints": {"required": True, "metavar": "URL,..", "help": "the members of etcd, the nearest first"},
            "--prefix": {"required": True, "type": prefix, "metavar": "KEY", "help": "what the keys of the log begin with"},
            "--name": {"required": True, "type": name, "help": "this host's name, another one on each host"},
            "--lease": {"type": seconds, "default": 10, "metavar": "SECONDS", "help": "lease of this server in etcd (10)"},
            "--away": {"type": seconds, "default": 60, "metavar": "SECONDS", "help": "how often it reports hosts that are away (60)"},
            "--cacert": {"metavar": "FILE", "help": "the certificate that signed those of the members"},
            "--cert": {"metavar": "FILE", "help": "the certificate that is shown to members"},
            "--key": {"metavar": "FILE", "help": "its key"},
            "--etcd-user": {"metavar": "NAME", "help": "a user of etcd, where it asks for one"},
            "--etcd-password-file": {"metavar": "FILE", "help": "the file with its password"}}.items():
        parser.add_argument(word, **more)
    return parser.parse_args(words)


def main(words: Optional[Sequence[str]] = None) -> int:
    """The command."""
    try:
        program = Program(parsed(words))
    except (OSError, ValueError) as fault:
        print(f"wozgirt-log: {fault}", file=sys.stderr)
        return 2
    keeper = begun(program)
    program.is_begun.set()
    program.crowd = crowd = Crowd(program.tell, f"{program.name}:{keeper.incarnation}")
    program.tell(f"log {program.place.identity} {keeper.incarnation}")
    program.start(keeper.run)
    program.start(lambda: append_all(program))
    obey(program, crowd)
    program.end(0)


if __name__ == "__main__":
    sys.exit(main())
