#!/bin/sh
# Tries `ring_tool serve`: a hundred kills with a journal (serve.py), a second process on one journal, an output that is full or
# closed, an endless line, bytes that are no text; and with -v prints how many calls a second it answers. Word: a `ring_tool`
# in place of one that is proved and built here. Needs rt, Python 3 and awk.
set -eu
. "$(dirname "$0")/../tools/common.sh"
measure=
[ "${1:-}" != -v ] || { measure=1; shift; }
tool=${1:-}
[ -n "$tool" ] || { build ring_tool --help; tool=$top/crates/ring_tool/out/ring_tool; }
case $tool in /*) ;; *) tool=$PWD/$tool ;; esac
room=$(mktemp -d)
trap 'rm -rf "$room"' EXIT
cd "$room"
cp "$top/examples/fresh.txt" .
tried=0
failed=0

# holds WHAT TEST..: counts a try, and tells it where the test fails
holds() {
    what=$1
    shift
    tried=$((tried + 1))
    "$@" || { echo "$what: wrong"; failed=$((failed + 1)); }
}

# ends STATUS TEXT: the last run ended so, and this is the last line on its standard error
ends() { [ "$status" = "$1" ] && [ "$(tail -1 told)" = "$2" ]; }

python3 "$top/trials/serve.py" "$tool" "$room/kills" 100

mkfifo calls
"$tool" serve fresh.txt --journal kept <calls >answers 2>first &
exec 3>calls
echo 'pass 0 0 0 1' >&3
while [ ! -s answers ]; do sleep 0.1; done
status=0
"$tool" serve fresh.txt --journal kept </dev/null >/dev/null 2>told || status=$?
holds 'a second process on one journal' ends 1 'kept is in use'
cp kept held
printf '%s' '{"rings":[{"n":2,"k":2,"start":[0,0]}],"workers":[{"script":[]}]}' >none.json
for words in 'run none.json --history kept' 'upgrade fresh.txt kept' 'picture fresh.txt kept' 'recover held kept'; do
    status=0
    "$tool" $words >/dev/null 2>told || status=$?
    holds "$words over a journal that is kept" ends 1 'cannot write kept'
    holds "$words leaves it" cmp -s kept held
done
exec 3>&-
status=0
wait $! || status=$?
holds 'the end of the first' [ "$status" = 0 ]
holds 'the first process' [ "$(cat answers)" = 'granted 1 1' ]

"$tool" serve fresh.txt --journal gone <calls >answers 2>first &
exec 3>calls
echo 'pass 0 0 0 1' >&3
while [ ! -s answers ]; do sleep 0.1; done
rm gone
exec 3>&-
status=0
wait $! || status=$?
cp first told
holds 'a journal that was removed' ends 1 'cannot write gone'

status=0
yes 'glance 0' | head -100000 | "$tool" serve fresh.txt >/dev/full 2>told || status=$?
holds 'a full output' ends 1 'cannot write'
status=0
"$tool" serve fresh.txt <fresh.txt >&- 2>told || status=$?
holds 'a closed output' ends 1 'cannot write'
status=0
head -c 100000000 /dev/zero | "$tool" serve fresh.txt >answers 2>told || status=$?
holds 'an endless line' ends 0 'total rings 2 events 0 granted 0 surveys 0'
holds 'its answers' [ ! -s answers ]
status=0
head -c 1000000 /dev/urandom | "$tool" serve fresh.txt >answers 2>told || status=$?
holds 'no text' ends 0 'total rings 2 events 0 granted 0 surveys 0'
holds 'its refusals' [ "$(sort -u answers)" = 'refused syntax' ]
status=0
{ head -c 10000 /dev/zero | tr '\0' x; printf '\nglance 0\n'; } | "$tool" serve fresh.txt >answers 2>told || status=$?
holds 'a line that is too long' [ "$(cat answers)" = "$(printf 'refused syntax\nsurvey 0 3 0 0 6')" ]
status=0
yes 'pass 0 0 0 1' | head -1000000 | "$tool" serve fresh.txt >answers 2>told || status=$?
holds 'a million lines' ends 0 'total rings 2 events 1000000 granted 1 surveys 0'
holds 'their answers' [ "$(sort answers | uniq -c | tr -s ' \n' ' ')" = ' 1 granted 1 1 999999 waits ' ]
status=0
(trap '' XFSZ; ulimit -f 4; yes 'pass 0 0 0 1' | head -1000 | "$tool" serve fresh.txt --journal small >answers 2>told) || status=$?
holds 'a journal that is full' ends 1 'cannot write small'
holds 'nothing is told then' [ ! -s answers ]
holds 'it is recovered' "$tool" recover small recovered
printf 'ringjournal 1\nnothing\n' >wrong
cp wrong was
status=0
"$tool" serve fresh.txt --journal wrong </dev/null >answers 2>told || status=$?
holds 'a wrong journal' ends 1 'wrong: line 2: syntax'
holds 'it stays as it was' cmp -s wrong was
echo "$tried tries, $failed failed"

if [ -n "$measure" ]; then
    python3 "$top/bench/serve_speed.py" "$tool" fresh.txt
fi
[ "$failed" = 0 ]
