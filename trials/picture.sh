#!/bin/sh
# Draws histories with the built program: the examples, a repair, and a ring of the greatest n. Each picture is held against
# `xmllint` (Debian's libxml2-utils), where it is there, and against the one that models/picture.py draws from the ring's rules
# alone; it may have at most 200 bytes an event and 4,096 for what stands around, and one rectangle's 64 for each machine. Takes
# a screenshot of each with headless Chromium (Debian's chromium), where it is there. At the top: trials/picture.sh
set -eu
. "$(dirname "$0")/../tools/common.sh"
tool=$top/crates/ring_tool/out/ring_tool
build ring_tool --help
limit=$(sed -n 's/^machine_limit = //p' "$top/crates/ring_model/specs/Limits.antt")

# shown NAME FILE RING FROM EVENTS: the picture of a saved history as NAME.svg, and as NAME.png
shown() {
    "$tool" picture "$2" "$out/$1.svg" --ring "$3" --from "$4" --events "$5"
    if command -v xmllint >/dev/null; then xmllint --noout "$out/$1.svg"; fi
    (cd "$top" && python3 -B models/picture.py "$2" "$out/$1.svg" "$3" "$4" "$5")
    n=$(awk -v ring="$3" '$1 == "ring" && $2 == ring { print $3; exit }' "$2")
    drawn=$(awk -v ring="$3" '$1 == "ring" { on = $2 == ring } on && $1 == "end" { print $2; exit }' "$2")
    drawn=$((drawn - $4 < $5 ? drawn - $4 : $5))
    [ "$(wc -c <"$out/$1.svg")" -le $((4096 + 64 * n + 200 * drawn)) ] || { echo "$1.svg is too large"; exit 1; }
    if command -v chromium >/dev/null; then
        timeout 120 chromium --headless --no-sandbox --disable-gpu --hide-scrollbars --window-size=1000,680 \
            --screenshot="$out/$1.png" "file://$out/$1.svg" >/dev/null 2>&1
    fi
}

for example in first script contended faults; do
    "$tool" run "$top/examples/$example.json" --history "$out/$example.txt" >/dev/null
    shown "$example" "$out/$example.txt" 0 0 2000
done
shown faults-1 "$out/faults.txt" 1 0 400
shown repair "$top/examples/repair.txt" 0 0 2000
cmp "$out/repair.svg" "$top/docs/picture.svg"

# the values 0, 1, 2, ..: each machine but the first one is privileged, and two clients ask
awk -v n="$limit" 'BEGIN {
    printf "{\"rings\":[{\"n\":%d,\"k\":%d,\"start\":[0", n, n
    for (i = 1; i < n; i++) printf ",%d", i
    print "]}],\"workers\":[{\"seed\":1,\"actions\":20000},{\"seed\":2,\"actions\":20000}]}"
}' >"$out/greatest.json"
"$tool" run "$out/greatest.json" --history "$out/greatest.txt" >/dev/null
shown greatest "$out/greatest.txt" 0 0 2000
shown greatest-long "$out/greatest.txt" 0 5000 20000
