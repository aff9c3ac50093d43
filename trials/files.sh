#!/bin/sh
# Tries what could rob a file: an interrupt and a disk that is full in the middle of a large `upgrade F F`, two runs with one
# history, a standard output that is closed, full or the history itself, and files made over the ones that they are made
# from. After each the old file is whole, or the new one is, and no part is left but after an interrupt. Needs rt and awk.
set -eu
. "$(dirname "$0")/../tools/common.sh"
build ring_tool --help
program=$top/crates/ring_tool/out/ring_tool
room=$(mktemp -d)
trap 'rm -rf "$room"' EXIT
cd "$room"
tried=0
failed=0

# holds WHAT TEST..: counts a try, and tells it where the test fails
holds() {
    what=$1
    shift
    tried=$((tried + 1))
    "$@" || { echo "$what: wrong"; failed=$((failed + 1)); }
}

# ends STATUS COMMAND..: the command ends with this status; what it tells stands in `told`
ends() {
    wanted=$1
    shift
    status=0
    "$@" 2>told || status=$?
    [ "$status" = "$wanted" ]
}

# has WORD..: the folder has just these files beside those of the script
has() { [ "$(ls -A | grep -v -e told -e '\.json$' | tr '\n' ' ')" = "$* " ]; }

# A text of version 1 with four rings of two million events.
large() {
    awk 'BEGIN {
        print "ringfarm 1"
        for (r = 0; r < 4; r++) {
            print "ring", r, 2, 2
            print "start 0 0"
            for (i = 0; i < 2000000; i++) print "p 0 1 7 n"
            print "end 2000000"
        }
        print "done 4"
    }'
}

large >large.txt
cp large.txt same.txt
# The shell has what runs beside it ignore the interrupt of a keyboard, so it is sent the signal to end.
"$program" upgrade large.txt large.txt >/dev/null &
while [ ! -s .wozgirt.part ] && kill -0 $! 2>told; do sleep 0.01; done
kill -TERM $!
status=0
wait $! || status=$?
holds "an interrupt ends it" [ "$status" -gt 128 ]
holds "an interrupt leaves the old file" cmp -s large.txt same.txt
holds "and a part" [ -f .wozgirt.part ]

stopped() { (trap '' XFSZ; ulimit -f 1000; "$program" upgrade large.txt "$1"); }
stopped_at() { (trap '' XFSZ; ulimit -f 1; "$program" upgrade h.txt "$1"); }
holds "a full disk is told" ends 1 stopped large.txt
holds "by the file's name" [ "$(cat told)" = "cannot write large.txt" ]
holds "it leaves the old file" cmp -s large.txt same.txt
holds "a full disk makes no new file" ends 1 stopped new.txt
holds "and leaves no part" has large.txt same.txt
holds "an upgrade in place" ends 0 "$program" upgrade large.txt large.txt
holds "is that of another file" ends 0 "$program" upgrade same.txt new.txt
holds "with the same text" cmp -s large.txt new.txt
rm large.txt same.txt new.txt

drawn many.json 1 1024 1024 1 5000
cp "$out/many.json" many.json
closed() { "$program" run many.json --history h.txt >&-; }
holds "a closed output is told" ends 1 closed
holds "as that" [ "$(cat told)" = "cannot write" ]
holds "the history is whole, though the report has more than 8 KiB" ends 0 "$program" check h.txt
full() { "$program" run many.json --history h.txt >/dev/full; }
holds "a full output" ends 1 full
holds "leaves the history whole" ends 0 "$program" check h.txt
# What a command reads or prints into by a standard descriptor is not replaced.
cp h.txt same
itself() { "$program" run many.json --history h.txt >>h.txt; }
holds "a report into the history" ends 1 itself
holds "is told" [ "$(cat told)" = "h.txt is the file of a standard stream" ]
by_device() { "$program" run many.json --history /dev/stdout >>h.txt; }
holds "a history into the output's own file" ends 1 by_device
status=0
"$program" picture h.txt errors 2>errors || status=$?
holds "a picture into the faults" [ "$status" = 1 ]
rm errors
for words in 'picture - h.txt' 'recover - h.txt' 'run - --history h.txt'; do
    from_itself() { "$program" $words <h.txt; }
    holds "$words from h.txt" ends 1 from_itself
    holds "$words is told" [ "$(cat told)" = "h.txt is the file that is read" ]
    holds "$words leaves it" cmp -s h.txt same
done
from_settings() { "$program" run - --history many.json <many.json; }
holds "a history over the settings by standard input" ends 1 from_settings
holds "leaves the settings" cmp -s many.json "$out/many.json"
holds "a device is no such file" ends 0 "$program" run many.json --history /dev/null </dev/null
rm same

drawn one.json 1 64 64 3 100000
drawn two.json 16 8 16 3 20000
cp "$out/one.json" "$out/two.json" .
"$program" run one.json --history h.txt --quiet >/dev/null &
first=$!
"$program" run two.json --history h.txt --quiet >/dev/null
wait $first
holds "of two runs with one history one text stays" ends 0 "$program" check h.txt
holds "and no part" has h.txt

ln -s h.txt link.txt
cp h.txt same
for name in h.txt ./h.txt link.txt; do
    holds "a picture over its history, $name" ends 1 "$program" picture h.txt "$name"
    holds "is told, $name" [ "$(cat told)" = "$name is the file that is read" ]
done
holds "and leaves it" cmp -s h.txt same
holds "a history over its settings" ends 1 "$program" run many.json --history ./many.json
holds "leaves them" cmp -s many.json "$out/many.json"
chmod 640 h.txt
holds "an upgrade through a link" ends 0 "$program" upgrade h.txt link.txt
holds "leaves the link" [ -L link.txt ]
holds "and the file's permissions" [ "$(stat -c %a h.txt)" = 640 ]
ln -s there nowhere
holds "an upgrade to where a link leads" ends 0 "$program" upgrade h.txt nowhere
holds "makes that file" cmp -s h.txt there
rm there
holds "a full disk there" ends 1 stopped_at nowhere
holds "makes none" [ ! -e there ]
rm nowhere
long=$(printf '%255s' '' | tr ' ' x)
holds "a name of 255 bytes" ends 0 "$program" upgrade h.txt "$long"
holds "has the text" cmp -s h.txt "$long"
rm "$long"
holds "a device is written as it stands" ends 0 "$program" upgrade h.txt /dev/null
holds "and stays one" [ -c /dev/null ]
holds "no part is left" has h.txt link.txt same

row "files in danger" "$tried" "$failed"
echo "files in danger: $tried tries, $failed failed"
[ "$failed" = 0 ]
