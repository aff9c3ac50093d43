"""What clients were told of locks, and what that says of what they may be told next.

A *claim* is a hold that a client was told, until it has given it up, was told that it is lost, or may have been away for too long. The rules:

- a token of a lock is told to one client only, and always with the label of what that client asked;
- while there is a claim of a lock, no other client is told that it holds the lock;
- the hold of a client that is gone for good is granted to nobody before its time is over: its lease, or the grace;
- a client that is back in time is told its claims, and its place if it waits; and nothing that it has not asked for;
- an input that was answered gets the same answer again, if the client was back in time; and a `try` that is answered `busy` has been
  granted nothing.

A client that is back too late cannot know whether its session is over. What it asks once more may then be done in two sessions."""

import itertools


class Wrong(Exception):
    """A rule is broken."""


class Model:
    """All clients of one folder."""

    def __init__(self, lease):
        self.labels = itertools.count(1)
        #: to which client a token was told, and the label of what it had asked; the labels of each `try` that was answered `busy`
        self.told, self.busy = {}, set()
        #: the claims: of each lock the client and the token
        self.claims = {}
        #: until when no client but this one is to be granted the lock with another token
        self.guards = {}
        #: the holds that their clients are giving up: which of them and which locks
        self.given = set()
        #: since when clients are away, and when those with a lease said something last: others get what they hold when that is over
        self.away, self.said, self.lease = {}, {}, lease
        self.counts = dict.fromkeys(("told", "returns", "late", "lost", "restarts", "again"), 0)

    def note(self, client, lock, token, label):
        """The client is told a token."""
        known = self.told.setdefault((lock, token), (client, label))
        if known[0] != client:
            raise Wrong(f"{client} is told {lock} {token}, which {known[0]} was told before")

    def tell(self, client, lock, token, label, now):
        """The client is told that it holds the lock."""
        self.note(client, lock, token, label)
        claim = self.claims.get(lock)
        if claim and (self.may_be_over(claim[0], now) or claim[0] != client and (claim[0], lock) in self.given):
            claim = None
        if claim and claim[0] != client:
            raise Wrong(f"{client} is told {lock} {token} while {claim[0]} has it by {claim[1]}")
        until, by, of = self.guards.get(lock, (0, None, None))
        if now < until and token != of:
            raise Wrong(f"{client} is told {lock} {token}, {until - now:.3f} s before the time of {by} with {of} is over")
        self.guards.pop(lock, None)
        if not claim or claim[1] != token:
            self.counts["told"] += 1
        if not claim or claim[1] != token:
            self.given.discard((client, lock))
        self.claims[lock] = client, token

    def may_be_over(self, client, now):
        """Whether the client's lease may be over."""
        return now - self.away.get(client, self.said.get(client, now)) > self.lease

    def give(self, client, words):
        """The client asks to give up a hold, or all."""
        if words[0] in ("release", "leave"):
            self.given.update((client, lock) for lock in self.claimed(client) if words[0] == "leave" or words[1] == lock)

    def give_up(self, client, lock):
        """The client has no claim of the lock any more."""
        self.given.discard((client, lock))
        if self.claims.get(lock, (None,))[0] == client:
            del self.claims[lock]

    def guard(self, client, lock, until):
        """The client is gone for good: its hold lasts until then at least."""
        if self.claims.get(lock, (None,))[0] == client:
            _, token = self.claims.pop(lock)
            self.guards[lock] = until, client, token

    def claimed(self, client):
        """The claims of a client, with their tokens."""
        return {lock: token for lock, (by, token) in self.claims.items() if by == client}


def judge(holds, model):
    """What is wrong with the holds of the journal, beside what clients were told."""
    open_, grants, wrong = {}, {}, []
    for it in holds:
        if it[0]:
            _, lock, token, label = it
            if lock in open_:
                wrong.append(f"{lock} {token} is granted while {open_[lock]} is open")
            open_[lock] = token
            grants[lock, token] = label
        elif open_.pop(it[1], None) is None:
            wrong.append(f"an end of no hold of {it[1]}")
    wrong += [f"{lock} {token} was granted to what was answered busy" for (lock, token), label in grants.items() if label in model.busy]
    for (lock, token), (client, label) in model.told.items():
        if grants.get((lock, token)) != label:
            wrong.append(f"{client} was told {lock} {token} for {label}; the journal has {grants.get((lock, token))}")
    return wrong
