"""Four threads share one ring, a fault is injected in the middle, and the history is saved: four_threads.py HISTORY"""

from __future__ import annotations

import sys
import threading

from wozgirt.ring import NoSeat, Ring, Truncated, check

MACHINES, VALUES, THREADS, CALLS = 5, 6, 4, 5000


def serve(ring: Ring, seat: int, granted: list[int]) -> None:
    for turn in range(CALLS):
        if ring.pass_(seat, (seat + turn) % MACHINES, 1) is not None:
            granted[seat] += 1
        if seat == 0 and turn == CALLS // 2:
            ring.corrupt(seat, machine=3, value=2)


def main() -> int:
    if len(sys.argv) != 2:
        print(__doc__, file=sys.stderr)
        return 2
    granted = [0] * THREADS
    with Ring(MACHINES, VALUES, start=[0, 2, 4, 1, 3], seats=THREADS) as ring:
        clients = [threading.Thread(target=serve, args=(ring, seat, granted)) for seat in range(THREADS)]
        for client in clients:
            client.start()
        for client in clients:
            client.join()
        ring.survey(0)
        try:
            ring.pass_(THREADS, 0, 1)
            return 1
        except NoSeat:
            pass
        text = ring.save()
    with open(sys.argv[1], "wb") as file:
        file.write(text)
    with Ring.from_saved(text, place=0, seats=THREADS) as ring:
        assert len(ring) == THREADS * CALLS + 1
    try:
        check(text[:-1])
        return 1
    except Truncated:
        pass
    sums = check(text)
    told = "as told" if sums.granted == sum(granted) else "otherwise"
    print(f"events {sums.events} granted {told} corrupted {sums.corrupted} surveys {sums.surveys} verdict legal")
    return 0 if told == "as told" else 1


if __name__ == "__main__":
    sys.exit(main())
