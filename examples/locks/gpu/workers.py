"""workers.py SOCKET [WORKERS]: so many processes share one GPU, which a lock stands for. Each takes it for each of its steps."""

import multiprocessing
import os
import sys
import tempfile
import time

from wozgirt import Client, Lock

STEPS = 5


def work(place: str, number: int, folder: str) -> int:
    """Does the steps of one worker; returns how often another was at the GPU meanwhile."""
    clashes = 0
    busy = os.path.join(folder, "busy")
    with Client(place) as client:
        for _ in range(STEPS):
            with Lock(client, "gpu/0", wait=60, label=number):
                try:
                    os.close(os.open(busy, os.O_CREAT | os.O_EXCL))
                except FileExistsError:
                    clashes += 1
                time.sleep(0.002)  # here the GPU would compute
                os.unlink(busy)
    return clashes


def main() -> int:
    if not 2 <= len(sys.argv) <= 3:
        print(__doc__, file=sys.stderr)
        return 2
    workers = int(sys.argv[2]) if len(sys.argv) == 3 else 10
    with tempfile.TemporaryDirectory() as folder, multiprocessing.Pool(workers) as pool:
        clashes = sum(pool.starmap(work, [(sys.argv[1], number, folder) for number in range(workers)]))
    print(f"workers {workers} steps {workers * STEPS} clashes {clashes}")
    return 0 if clashes == 0 else 1


if __name__ == "__main__":
    sys.exit(main())
