#!/bin/sh
# Runs the proofs of the merge gate in a clean clone of what is committed, watches what they start, and prints what each crate costs: the
# processor seconds of its proof, of its tests, and of its edits, and the longest chain of tasks that wait for each other.
# docs/GATE.md says how to read the table. The words, if any, start the gate: bench/gate.sh taskset -c 0,1. The whole
# output of the gate is kept in out/gate.log. The status is the gate's.
# Needs rt, git and python3.
set -eu
. "$(dirname "$0")/../tools/common.sh"
clone
cd "$room/clone"
python3 "$top/bench/gate.py" "$out" "$@" .ci/prove
