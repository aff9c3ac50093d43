#!/bin/sh
# Gives the program files that are too large to lie in a test: a history of some megabytes, a file of just as many bytes as
# are read and one with a byte more, both sparse, and a device that never ends. Needs rt, awk and 2 GiB of memory.
set -eu
. "$(dirname "$0")/../tools/common.sh"
build ring_tool --help
program=$top/crates/ring_tool/out/ring_tool
tried=1
failed=0

# told WANTED COMMAND FILE [INPUT]: the program refuses the file, or its standard input, so, with status 1, and prints nothing else
told() {
    status=0
    tried=$((tried + 1))
    (cd "$out" && "$program" "$2" "$3" <"${4:-/dev/null}" >got.txt 2>got-fault.txt) || status=$?
    if [ "$status" != 1 ] || [ -s "$out/got.txt" ] || [ "$(cat "$out/got-fault.txt")" != "$1" ]; then
        echo "$2 $3: status $status, $(cat "$out/got-fault.txt")"
        failed=$((failed + 1))
    fi
}

passes long.json 8 200000 0
"$program" run "$out/long.json" --history "$out/long.txt" >/dev/null
[ "$("$program" check "$out/long.txt")" = "legal rings 1 events 200000 granted 200000 corrupted 0 surveys 0" ] || {
    echo "a long history is not legal"
    failed=1
}

rm -f "$out/limit" "$out/over"
truncate -s 1073741824 "$out/limit"
truncate -s 1073741825 "$out/over"
told "line 1: syntax" check limit
told "over is too large" check over
told "settings are not JSON" run limit
told "over is too large" run over
told "/dev/zero is too large" check /dev/zero
told "- is too large" check - over
listed=$out/listed
rm -rf "$listed"
mkdir "$listed"
printf '1 acquire a 1\n' | "$program" locks --journal "$listed" --locks a >/dev/null 2>&1
ln -sf /dev/zero "$listed/locks"
for command in check holds; do
    told "cannot read listed/locks" "$command" listed
done
rm -rf "$listed"
told "- is too large" run - /dev/zero
rm -f "$out/limit" "$out/over"
row "large files, and standard input without an end" "$tried" "$failed"
[ "$failed" != 0 ] || echo "each large file is answered"
[ "$failed" = 0 ]
