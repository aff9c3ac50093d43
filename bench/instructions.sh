#!/bin/sh
# Counts instructions, and compares them with docs/COSTS.md: for a drawn action on one ring of 16 machines, with one seat
# and with nine, and for a line of a history that is checked. They are those of a whole process by 100,000 actions or
# lines. A program has the same count on every machine, but for the waits of nine seats; a change of more than 3 % is
# told, and the status is then 1. Word: a `ring_tool` that is counted in place of one that is proved and built here.
# Needs rt, valgrind and awk.
set -eu
. "$(dirname "$0")/../tools/common.sh"
tool=${1:-}
[ -n "$tool" ] || { build ring_tool --help; tool=$top/crates/ring_tool/out/ring_tool; }
case $tool in /*) ;; *) tool=$PWD/$tool ;; esac
status=0

# counted COMMAND WORD..: runs it in out, and answers its instructions
counted() {
    (cd "$out" && valgrind --tool=callgrind --callgrind-out-file="$out/callgrind.out" "$@" 2>&1 >"$out/counted.txt") |
        awk '/Collected/ { print $NF }'
}

# compare WHAT INSTRUCTIONS PIECES: tells the count of each piece beside that of the page's row that has these words
compare() {
    awk -v what="$1" -v all="$2" -v pieces="$3" -F '|' '
        BEGIN { now = all / pieces }
        index($0, "instructions, " what) { split($3, words, " "); told = words[1]; gsub(/,/, "", told) }
        END {
            printf "instructions, %s: %.0f", what, now
            if (told == "") { print ", and docs/COSTS.md has no row of it"; exit 1 }
            change = 100 * (now / told - 1)
            printf ", %s in docs/COSTS.md (%+.1f %%)\n", told, change
            if (change > 3 || change < -3) { print "  a change of more than 3 %"; exit 1 }
        }' "$top/docs/COSTS.md" || status=1
}

drawn one-seat.json 1 16 16 1 100000
drawn nine-seats.json 1 16 16 9 11111
compare "drawn action, one seat" "$(counted "$tool" run one-seat.json)" 100000
compare "drawn action, nine seats" "$(counted "$tool" run nine-seats.json)" 99999
(cd "$out" && "$tool" run one-seat.json --history one-seat.txt >one-seat.report)
compare "a line checked" "$(counted "$tool" check one-seat.txt)" "$(wc -l <"$out/one-seat.txt")"
exit $status
