"""Locks of a wozgirt-server, with only the standard library.

    from wozgirt import Lock

    with Lock("/run/wozgirt/lock.sock", "deploy", wait=5) as token:
        ...  # the token is greater than all earlier ones: give it to whatever you write to

A client is one connection. It waits for one lock at a time; a program that waits for several at once has several clients.
If the connection goes, the server lets others have what it held. `LockLost` says so here, and the token says so to a
storage that refuses tokens that are older than one it has seen.

Several servers that share their locks are given as `Lock("tcp:one:7000,tcp:two:7000,tcp:three:7000", "deploy")`: what was asked is
done once and holds stay, also if the one that was asked dies (`Session`).

`tls:HOST:PORT` is a server that is reached by TLS; `Tls` names the certificates.

`wozgirt.aio` has the same for asyncio, and `wozgirt.ring` has token rings inside a program.
"""

from .client import Client
from .lines import (Circle, Holds, Inherited, Label, LockError, LockLost, LockStatus, NoSuchLock, NotHolder, NotInTime, NotPermitted,
                    NotWaiter, Place, Places, Refused, TooMany, Waits, label_number)
from .lock import Lock
from .session import Session
from .tls import Tls

__all__ = ["Circle", "Client", "Holds", "Inherited", "Label", "Lock", "LockError", "LockLost", "LockStatus", "NoSuchLock", "NotHolder",
           "NotInTime", "NotPermitted", "NotWaiter", "Place", "Places", "Refused", "Session", "Tls", "TooMany", "Waits", "label_number"]
__version__ = "0.1.0"
