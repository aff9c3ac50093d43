#!/bin/sh
# Compares forms of the wait for a ring's lock with the lock alone, by clients that do something between their calls: one ring of
# 16 machines, and two, four and nine clients that spin 0 to 1,000 times before each pass. `none` is the lock alone, as in
# ring_shared; each other form stands in bench/waits/forms.patch, which changes a copy of ring_shared. All forms are in one
# program, which is proved with that copy, and K, less the 16 machines, says which one the ring has.
# Words: the forms; without words all of them. The forms take turns for ROUNDS rounds (9), alone and beside BUSY busy loops (4).
# Prints for each number of clients and of spins the median of the ratios to `none`, by the clock and by processor, and the median
# of the longest passes of a third of as many rounds. A form serves if no ratio by the clock is over 1.1.
# Needs rt, awk, patch and python3. Nothing else should run on the machine; it takes five minutes, after the proof.
set -eu
. "$(dirname "$0")/../tools/common.sh"
if [ ! -x "$out/waits" ] || [ -n "$(find "$top/bench/waits" "$top/crates/ring_shared/src" -newer "$out/waits")" ]; then
    alone "$top" waits
    patch -s -d "$room" -p1 <"$top/bench/waits/forms.patch"
    echo "proving and building waits"
    (cd "$room/crates/waits" && rt run >"$out/waits-build.log" 2>&1) || { cat "$out/waits-build.log"; echo "left in $room"; exit 1; }
    cp "$room/crates/waits/out/waits" "$out"
    rm -rf "$room"
fi
exec env PYTHONDONTWRITEBYTECODE=1 python3 "$top/bench/waits.py" "$out/waits" "${ROUNDS:-9}" "${BUSY:-4}" "$@"
