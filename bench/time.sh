#!/bin/sh
# Times one part of the product. Word: the part.
#
#   check     `ring_tool check` as a whole process: histories of 250,000, 500,000 and 1,000,000 events, and a hostile one of
#             1,000,000 events and as many surveys, each at another place, of a ring of 256 machines that never settles
#   farm      run_farm: events in a second and the greatest memory, for one ring with nine drawn workers of 100,000 actions,
#             sixteen rings with nine of 20,000, sixteen rings with nine of 320,000 (20,000 for each ring), each with rings of
#             16 and of 256 machines, and one worker of 1,000,000 passes
#   settings  ring_settings: reading a script of 1,000,000 actions, and drawing nine plans of 1,000,000, with the time of each
#             step and the greatest memory of each run
#   text      saved histories in memory: writing the text of a farm and reading it back, for 1,000,000 granted passes by one
#             worker, and for nine drawn workers of 100,000 actions, one in eight of which is a survey
#
# Needs rt, awk and /usr/bin/time.
set -eu
. "$(dirname "$0")/../tools/common.sh"

# timed FORM COMMAND WORD..: runs it in out, and tells its time and its greatest memory
timed() {
    form=$1
    shift
    (cd "$out" && /usr/bin/time -f "$form" "$@")
}

# runs WORD FILE..: lets farm_bench do the word with each file
runs() {
    word=$1
    shift
    program "$top" farm_bench "$out"
    for file in "$@"; do
        timed "  %e s in all, %M KiB at most" "$out/farm_bench" "$word" "$file.json"
    done
}

# a history of a ring that never settles: of the values 0, 2, 0, 2, .. machine 0 alone has no privilege, so its passes
# change nothing
hostile() {
    awk 'BEGIN {
        printf "{\"rings\":[{\"n\":256,\"k\":256,\"start\":[0"
        for (i = 1; i < 256; i++) printf ",%d", i % 2 * 2
        print "]}],\"workers\":[{\"script\":[[\"pass\",0,0,1],[\"survey\",0]]}]}"
    }' >"$out/unsettled.json"
    "$tool" run "$out/unsettled.json" --history "$out/unsettled.txt" >/dev/null
    awk '/^p / { for (i = 0; i < 1000000; i++) print; next }
        /^end / { print "end 1000000"; next }
        /^s / { for (i = 1; i <= 1000000; i++) { $3 = i; print }; next }
        { print }' "$out/unsettled.txt" >"$out/hostile.txt"
}

time_check() {
    tool=$top/crates/ring_tool/out/ring_tool
    build ring_tool --help
    for events in 250000 500000 1000000; do
        passes passes.json 8 "$events" 0
        "$tool" run "$out/passes.json" --history "$out/passes.txt" >/dev/null
        echo "$(wc -c <"$out/passes.txt") bytes"
        timed "  %e s, %M KiB at most" "$tool" check passes.txt
    done
    hostile
    echo "hostile, $(wc -c <"$out/hostile.txt") bytes"
    timed "  %e s, %M KiB at most" "$tool" check hostile.txt
}

time_farm() {
    for n in 16 256; do
        drawn "one-ring-$n.json" 1 "$n" "$n" 9 100000
        drawn "sixteen-rings-$n.json" 16 "$n" "$n" 9 20000
        drawn "sixteen-long-$n.json" 16 "$n" "$n" 9 320000
    done
    passes one-worker.json 8 1000000 0
    drawn nothing.json 1 16 16 9 0
    runs run nothing one-ring-16 one-ring-256 sixteen-rings-16 sixteen-rings-256 sixteen-long-16 sixteen-long-256 one-worker
}

time_settings() {
    passes script.json 16 1000000 1
    drawn drawn.json 1 8 16 9 1000000
    runs plans script drawn
}

time_text() {
    passes one-worker.json 8 1000000 0
    drawn one-ring-16.json 1 16 16 9 100000
    runs text one-worker one-ring-16
}

case ${1:-} in
    check | farm | settings | text) "time_$1" ;;
    *) echo "bench/time.sh check | farm | settings | text" >&2; exit 2 ;;
esac
