#!/bin/sh
# Holds the costs of a run now against those at a commit: builds the programs of both (that commit in a clone of its own
# below $TMPDIR or /tmp, which is kept for the next time), runs each pair in turn on this machine, and prints the ratio now
# to before by processor time, by the clock and by the greatest memory, the best of five runs each.
# bench/compare.sh COMMIT. Needs rt, git, awk and python3. Nothing else should run on the machine.
set -eu
. "$(dirname "$0")/../tools/common.sh"
commit=$(git -C "$top" rev-parse "$1^{commit}")
base=${TMPDIR:-/tmp}/wozgirt-$(git -C "$top" rev-parse --short "$commit")
[ -d "$base" ] || git clone -q "$top" "$base"
git -C "$base" checkout -q "$commit"
# built TREE FOLDER PROGRAM [WORD]: leaves the program of a tree in the folder, where the tree has it
built() {
    if [ -d "$1/bench/$3" ]; then
        program "$1" "$3" "$2" ${4:+"$4"}
    elif [ -d "$1/crates/$3" ]; then
        echo "proving and building $3 of $1"
        (cd "$1/crates/$3" && rt run -- ${4:+"$4"} >"$out/$3-build.log" 2>&1) || { cat "$out/$3-build.log"; exit 1; }
        mkdir -p "$2"
        cp "$1/crates/$3/out/$3" "$2"
    fi
}
# both PROGRAM [WORD]: now and at the commit
both() {
    built "$top" "$out/now" "$@"
    built "$base" "$out/before" "$@"
}
rm -rf "$out/now" "$out/before"
both ring_tool --help
both text_bench
both farm_bench
both close_bench --help
both ring_bench --help
for n in 16 256; do
    drawn "one-ring-$n.json" 1 "$n" "$n" 9 100000
    drawn "sixteen-long-$n.json" 16 "$n" "$n" 9 320000
done
cd "$out"
exec env PYTHONDONTWRITEBYTECODE=1 python3 "$top/bench/compare.py" "$out/before" "$out/now"
