#!/bin/sh
# Runs what is tried of hostile use beside the gate: each request for memory refused in turn, files that are too large, files in
# danger, and drawn settings and damaged texts for so many minutes (2 where there is no word). Prints one table, what, how many
# and how many of them failed, and ends with status 1 where one did; what each part printed stands in out/hostile-*.log.
# Needs rt, a C compiler, awk, python3 and 2 GiB of memory.
set -eu
. "$(dirname "$0")/../tools/common.sh"
HOSTILE_ROWS=$out/hostile.tsv
export HOSTILE_ROWS
: >"$HOSTILE_ROWS"

# part NAME WORD..: runs one of the scripts beside this; one that fails without a row of its own gets one
part() {
    before=$(awk -F '\t' '$3 > 0' "$HOSTILE_ROWS" | wc -l)
    "$top/trials/$1.sh" ${2:+"$2"} >"$out/hostile-$1.log" 2>&1 || {
        tail -5 "$out/hostile-$1.log"
        [ "$(awk -F '\t' '$3 > 0' "$HOSTILE_ROWS" | wc -l)" != "$before" ] || row "trials/$1.sh" 1 1
    }
}

part refused_memory
part large_files
part files
part soak "${1:-2}"
awk -F '\t' '
    BEGIN { print "| What | How many | Failed |"; print "|---|---|---|" }
    { printf "| %s | %d | %d |\n", $1, $2, $3; failed += $3 }
    END { exit failed > 0 }' "$HOSTILE_ROWS"
