#!/bin/sh
# Times the kernels of ring_lanes beside plain Rust loops: first as rustc -O builds the loops, then
# for this very processor. The kernels come from a static library for C, with a function for each of them under the kernel's
# own clauses; it stands as text in bench/ring_lanes_c, and is proved before it is built, for x86-64-v2, the default of rt.
# bench/lanes.rs links it, and compares each answer once with a plain loop, which has no early exit, but for `first`. Needs
# rt, awk and rustc, and no network.
set -eu
. "$(dirname "$0")/../tools/common.sh"
alone "$top" ring_lanes_c staticlib
trap 'rm -rf "$room"' EXIT
library=$room/crates/ring_lanes_c

echo "proving and building the static library"
(cd "$library" && rt lib >"$out/rt-lib.log" 2>&1) || { cat "$out/rt-lib.log"; exit 1; }

for flags in "" "-C target-cpu=native"; do
    # $flags is meant to split into words.
    rustc --edition 2024 -O $flags "$top/bench/lanes.rs" -L "native=$library/out" -l static=ring_lanes_c -o "$out/lanes"
    echo
    echo "plain loops by rustc -O $flags"
    "$out/lanes"
done
