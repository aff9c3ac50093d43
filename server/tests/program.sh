#!/bin/sh
# program.sh TOOL: runs the built program as a process, and compares the status that it ends with, its standard output and its standard
# error, byte by byte: a request that is done, refusals, words and a list that cannot be read, an output that cannot be written, a
# folder that two processes are to serve, journals without syncs, and locks whose memory is short.
# The last line is `N passed, M failed`.
set -u
tool=$1
refuser=$(cd "$(dirname "$0")/../../trials" && pwd)/refuse_memory.c
folder=$(mktemp -d) || exit 1
trap 'rm -rf "$folder"' EXIT
cd "$folder" || exit 1
passed=0 failed=0

# is NAME TEST ..: counts a test
is() {
    name=$1
    shift
    if "$@"; then
        passed=$((passed + 1))
    else
        failed=$((failed + 1))
        echo "failed: $name: status $status"
        cat out err
    fi
}

# run WORD ..: what it printed is in `out`, what it told is in `err`
run() {
    "$tool" "$@" >out 2>err </dev/null
    status=$?
}

# ended STATUS PRINTED TOLD: the two texts as printf has them
ended() {
    # shellcheck disable=SC2059 # they are formats
    printf "$2" >printed && printf "$3" >told
    [ "$status" -eq "$1" ] && cmp -s out printed && cmp -s err told
}

# asked_in_vain TEXT: the first line on standard error is this one, the usage comes behind it, and nothing was printed
asked_in_vain() {
    [ "$status" -eq 2 ] && [ ! -s out ] && [ "$(head -n 1 err)" = "$1" ] && grep -q '^Usage: ring_tool' err
}

cat >history.txt <<'END'
ringfarm 2
ring 0 3 3
start 0 2 0
p 0 0 5 g 1 5
p 0 0 1 n
p 0 2 4 g 2 9
end 3
s 0 3 1 1 2 0
done 1
END
sed 's/g 2 9/g 2 8/' history.txt >bad.txt

run check history.txt
is "legal history" ended 0 'legal rings 1 events 3 granted 2 corrupted 0 surveys 1\n' ''
run step 3 3 0,2,0 0,0,2
is "choices" ended 0 '0 granted 1\n0 not privileged\n2 granted 2\nstates 1,2,2\nprivileged 1 first 1\n' ''
run check bad.txt
is "history that is not legal" ended 1 '' 'line 6: reply\n'
run check --all bad.txt
is "all bad lines" ended 1 'line 6: reply: g 2 8, should be g 2 9\n' 'line 6: reply\n'
run check missing.txt
is "file that is not there" ended 1 '' 'cannot read missing.txt\n'
run step 3 3 0,,0
is "list that cannot be read" ended 2 '' 'bad list\n'
run leap
is "command that there is not" asked_in_vain "error: unrecognized subcommand 'leap'"
run check
is "word that is missing" asked_in_vain 'error: the following required arguments were not provided:'

"$tool" check history.txt >/dev/full 2>err </dev/null
status=$?
: >out
is "output that cannot be written" ended 1 '' 'cannot write\n'
"$tool" check --all bad.txt >/dev/full 2>err </dev/null
status=$?
is "bad lines that cannot be written" ended 1 '' 'cannot write\n'
"$tool" --help >/dev/full 2>err </dev/null
status=$?
is "help that cannot be written" ended 1 '' 'cannot write\n'

# answered: the process that serves has answered its first call; it has fifty seconds for that
answered() {
    tries=0
    while [ ! -s first ] && [ "$tries" -lt 500 ]; do
        sleep 0.1
        tries=$((tries + 1))
    done
    [ -s first ]
}

# one_at_a_time FOLDER CALL ANSWER WORD ..: while one process serves the folder, a second is refused; the first goes on, and when it
# has ended, the next one has the folder
one_at_a_time() {
    served=$1 call=$2 answer=$3
    shift 3
    rm -f calls first && mkfifo calls
    "$tool" "$@" <calls >first 2>/dev/null &
    server=$!
    exec 3>calls
    echo "$call" >&3
    status=none
    is "$1 in a folder" answered
    run "$@"
    is "$1 in a folder that another process serves" ended 1 '' "$served is in use\n"
    echo "$call" >&3
    exec 3>&-
    wait "$server"
    status=$?
    cp first out
    is "$1 in a folder, to its end" [ "$status $(head -n 1 first) $(wc -l <first)" = "0 $answer 2" ]
    run "$@"
    is "$1 in a folder that another process has served" [ "$status" -eq 0 ]
}

mkdir locked kept
one_at_a_time locked '1 try deploy 5' '1 granted deploy 1' locks --journal locked --locks deploy
one_at_a_time kept 'pass 0 0 1 5' 'granted 3 14' serve history.txt --journal kept

# has_grant WORD ..: the journal that this command reads records one grant
has_grant() {
    run "$@"
    [ "$status" -eq 0 ] && grep -q '^legal .* events 1 granted 1 corrupted 0 ' out
}

# without_syncs NAME CALL WORD .. -- WORD ..: what a process answers without syncs is in its journal, which the second words read, where it
# is killed then, and where it is refused since its output takes nothing
without_syncs() {
    what=$1 call=$2
    shift 2
    served=
    while [ "$1" != -- ]; do
        served="$served $1"
        shift
    done
    shift
    rm -f calls first && mkfifo calls
    # shellcheck disable=SC2086 # words
    "$tool" $served --no-sync <calls >first 2>/dev/null &
    server=$!
    exec 3>calls
    echo "$call" >&3
    status=none
    is "$what without syncs" answered
    kill -9 "$server"
    exec 3>&-
    wait "$server" 2>/dev/null
    is "$what without syncs, killed" has_grant "$@"
    rm -rf unsynced new.txt
    cp -r empty unsynced 2>/dev/null || :
    # shellcheck disable=SC2086 # words
    echo "$call" | "$tool" $served --no-sync >/dev/full 2>err
    status=$?
    : >out
    is "$what without syncs, whose output takes nothing" ended 1 '' 'cannot write\n'
    is "$what without syncs, refused" has_grant "$@"
    rm -rf unsynced new.txt
}

"$tool" new 3:3 >one.txt
mkdir unsynced empty
without_syncs "locks in a folder" '1 try deploy 5' locks --journal unsynced --locks deploy -- check unsynced
mkdir unsynced
without_syncs "serve in a folder" 'pass 0 0 0 5' serve one.txt --journal unsynced -- check unsynced
rmdir empty
without_syncs "serve in a file" 'pass 0 0 0 5' serve one.txt --journal unsynced -- recover unsynced new.txt

# short FOLDER WORD ..: locks answer `calls.txt`, where no request for memory may be for more than 128 KiB
short() {
    mkdir "$1" && LARGEST_REQUEST=131072 LD_PRELOAD=$PWD/refuse.so "$tool" locks --journal "$@" --locks deploy --no-sync <calls.txt >out 2>err
    status=$?
}

# is_told: without `--strict` memory is short at some call, and later ones are answered
is_told() {
    [ "$status" -eq 0 ] && grep -q '^1 refused memory deploy$' whole && [ "$(wc -l <whole)" -eq 8000 ]
}

# is_stopped: with it the calls of the blocks before are answered, and nothing more
is_stopped() {
    printf 'out of memory\n' >told
    [ "$status" -eq 1 ] && cmp -s err told && [ -s out ] && head -c "$(wc -c <out)" whole | cmp -s - out && ! grep -q refused out
}

if "${CC:-cc}" -shared -fPIC -O1 -o refuse.so "$refuser" -ldl 2>/dev/null; then
    awk 'BEGIN { for (i = 1; i <= 4000; i++) printf "1 try deploy %d\n1 release deploy %d\n", i, i }' >calls.txt
    short short.told
    cp out whole
    is "memory that is short, told" is_told
    short short.strict --strict
    is "memory that is short, on strict terms" is_stopped
else
    echo 'skipped: memory that is short, without a C compiler'
fi

echo "$passed passed, $failed failed"
[ "$failed" -eq 0 ]
