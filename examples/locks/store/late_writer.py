"""late_writer.py SOCKET: why a lock is not enough. A writer stops for longer than its lease while it holds the lock, as a process
does that is suspended; another gets the lock and writes; then the first goes on, and does not know. The store refuses it."""

import os
import sys
import tempfile
import time

from store import OldToken, Store

from wozgirt import Lock
from wozgirt.client import connected


def main() -> int:
    if len(sys.argv) != 2:
        print(__doc__, file=sys.stderr)
        return 2
    place = sys.argv[1]
    with tempfile.TemporaryDirectory() as folder:
        store = Store(os.path.join(folder, "text"))
        late = connected(place)
        late.sendall(b"lease 200\nacquire deploy 1\n")
        answers = late.makefile("r", encoding="ascii")
        answers.readline()
        token = int(answers.readline().split()[2])
        print(f"the late writer holds the lock, token {token}, and stops")
        time.sleep(0.1)
        with Lock(place, "deploy", wait=10, label=2) as later:
            store.write(later, "written by the other")
            print(f"the other wrote with token {later}")
        try:
            store.write(token, "written too late")
            print("the late write was taken")
            return 1
        except OldToken as refusal:
            print(f"the late write is refused: {refusal}")
        print(f"the text is: {store.read()[1]}")
        late.close()
    return 0


if __name__ == "__main__":
    sys.exit(main())
