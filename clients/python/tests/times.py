"""The times that clients give a server, as tests want them: none that a busy machine, or one that stands still for a while, could break,
and none by which a client that waits for something else would come to an end."""

from unittest import mock

from harness import PATIENCE

#: those of a server that is to say that a question is withdrawn
TO_WITHDRAW = ("client.WITHDRAW", "client.INTERRUPTED", "lock.WITHDRAW", "aio.WITHDRAW", "aio.INTERRUPTED", "aio_session.WITHDRAW")
#: those of what has no deadline of the caller
WITHOUT_DEADLINE = ("client.INTERRUPTED", "client.CLOSE", "lock.CONNECT", "session.CONNECT_ONE", "session.ANSWER", "aio.CONNECT",
                    "aio.INTERRUPTED", "aio_session.CLOSE")
#: longer than any test
NEVER = 1000


def _with(names, seconds, test):
    for name in names:
        test = mock.patch(f"wozgirt.{name}", seconds)(test)
    return test


def patiently(test):
    """A server that answers is in time, however late it is: for what is to be seen when it has answered."""
    return _with(TO_WITHDRAW, PATIENCE, test)


def or_never(test):
    """A call ends by the deadline of its caller, or not in the time of a test: so it may end late, and a wrong deadline is seen."""
    return _with(WITHOUT_DEADLINE, NEVER, test)
