#!/bin/sh
# Prints P, the unit in which docs/GATE.md tells what things cost: the processor seconds, user and system, of `rt check` in
# ring_lanes from nothing at the commit below, with ring_model built beforehand. Machines differ by a factor of two and more,
# P does not: measure it on the same machine, within the same hour, with nothing else running. Needs rt, git and python3.
set -eu
. "$(dirname "$0")/../tools/common.sh"
clone 9877057
cd "$room/clone"
(cd crates/ring_model && rt lib) >"$room/model.log" 2>&1 || { cat "$room/model.log"; exit 1; }
cd crates/ring_lanes
python3 - <<'PYTHON'
import resource, subprocess, sys
ran = subprocess.run(["rt", "check"], stdin=subprocess.DEVNULL, stdout=subprocess.PIPE, stderr=subprocess.STDOUT, text=True)
used = resource.getrusage(resource.RUSAGE_CHILDREN)
print(ran.stdout if ran.returncode else f"P = {used.ru_utime + used.ru_stime:.1f} processor seconds")
sys.exit(ran.returncode)
PYTHON
