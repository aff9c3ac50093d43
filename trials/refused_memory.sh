#!/bin/sh
# Refuses each request for memory in turn: in those tests that are written for it (they pass where a refusal is told and
# what was there before still is), and in the program, which has to answer as ever, or with status 1, a text that names
# what failed, and nothing on standard output. Runs a test in which no request may be for more than 4 KiB, and tests in
# which each request is refused from a mark on that they set: they make the calls that take no memory.
# Words: the crates to try, all of them where there is none.
# Needs rt and a C compiler.
set -eu
. "$(dirname "$0")/../tools/common.sh"
"${CC:-cc}" -shared -fPIC -O1 -o "$out/refuse_memory.so" "$top/trials/refuse_memory.c" -ldl
mark=$out/refused
failed=0

# refused N COMMAND..: the command with its request N refused; the status is the command's
refused() {
    number=$1
    shift
    rm -f "$mark"
    REFUSED_REQUEST=$number REFUSED_MARK=$mark LD_PRELOAD=$out/refuse_memory.so "$@"
}

# a test of a crate, by its full name
try_test() {
    number=1
    differ=0
    while :; do
        refused "$number" "$top/crates/$1/out/$1_tests" "$2" >"$out/refused.txt" 2>&1 || {
            echo "$1 $2, request $number:"
            tail -1 "$out/refused.txt"
            differ=$((differ + 1))
            failed=1
        }
        [ -e "$mark" ] || break
        number=$((number + 1))
    done
    echo "$1 $2: $((number - 1)) requests refused in turn"
    row "requests for memory refused in turn: $1 $2" "$((number - 1))" "$differ"
}

# the tests of a crate whose names begin so
try_crate() {
    echo "proving and building the tests of $1"
    (cd "$top/crates/$1" && rt test >"$out/refused-$1.log" 2>&1) || { tail -5 "$out/refused-$1.log"; exit 1; }
    for name in $("$top/crates/$1/out/$1_tests" --list | sed -n 's/: test$//p' | grep -E "$2"); do
        try_test "$1" "$name"
    done
}

# a test of a crate, proved and built before, by its full name: it has to pass with no request for more than so many bytes
try_largest() {
    rm -f "$mark"
    status=0
    LARGEST_REQUEST=$3 REFUSED_MARK=$mark LD_PRELOAD=$out/refuse_memory.so "$top/crates/$1/out/$1_tests" "$2" >"$out/refused.txt" 2>&1 || status=$?
    if [ "$status" != 0 ] || [ -e "$mark" ]; then
        echo "$1 $2: a request for more than $3 bytes"
        tail -1 "$out/refused.txt"
        row "no request for more than $3 bytes: $1 $2" 1 1
        failed=1
    else
        echo "$1 $2: no request for more than $3 bytes"
        row "no request for more than $3 bytes: $1 $2" 1 0
    fi
}

# a test of a crate, proved and built before, by its full name: it makes a request of just MARK bytes, calls that take no memory,
# and a request of a byte more; it has to pass with each request between the two refused, and there may be none
try_mark() {
    rm -f "$mark" "$mark-between"
    status=0
    REFUSED_FROM=1234567 REFUSED_MARK=$mark REFUSED_BETWEEN=$mark-between LD_PRELOAD=$out/refuse_memory.so "$top/crates/$1/out/$1_tests" "$2" >"$out/refused.txt" 2>&1 || status=$?
    if [ "$status" != 0 ] || [ ! -e "$mark" ] || [ -e "$mark-between" ]; then
        echo "$1 $2: not passed with each request from its mark on refused, or no mark, or a request between its marks"
        tail -1 "$out/refused.txt"
        row "each request from a mark on refused: $1 $2" 1 1
        failed=1
    else
        echo "$1 $2: passed with each request from its mark on refused"
        row "each request from a mark on refused: $1 $2" 1 0
    fi
}

# the program with these words, in the folder of the outputs; its standard input is the file `input` there
try_program() {
    (cd "$out" && "$program" "$@" <input >wanted.txt 2>wanted-fault.txt) || { cat "$out/wanted-fault.txt"; exit 1; }
    number=1
    differ=0
    while :; do
        status=0
        (cd "$out" && refused "$number" "$program" "$@" <input >got.txt 2>got-fault.txt) || status=$?
        if [ "$status" = 0 ]; then
            cmp -s "$out/got.txt" "$out/wanted.txt" || {
                echo "$*, request $number: another answer"
                differ=$((differ + 1))
                failed=1
            }
        elif [ "$status" != 1 ] || [ -s "$out/got.txt" ] || ! grep -qxE 'out of memory|a thread could not be started|no reader place|cannot (read|write)( .*)?' "$out/got-fault.txt"; then
            echo "$*, request $number: status $status"
            cat "$out/got-fault.txt"
            differ=$((differ + 1))
            failed=1
        fi
        [ -e "$mark" ] || break
        number=$((number + 1))
    done
    echo "$*: $((number - 1)) requests refused in turn"
    row "requests for memory refused in turn: ring_tool $*" "$((number - 1))" "$differ"
}

crates=${*:-ring_tests farm_tests ring_tool}
for crate in $crates; do
    case $crate in
    ring_tests)
        try_crate "$crate" "^(book|settle)::|memory"
        try_mark "$crate" book::calls_with_room_and_surveys_take_no_memory
        try_mark "$crate" settle::following_takes_no_memory
        try_mark "$crate" shared::lack_of_memory_changes_nothing
        ;;
    farm_tests)
        try_crate "$crate" lack_of_memory
        try_largest "$crate" texts::reading::room_is_asked_for_as_values_are_read 4096
        try_mark "$crate" texts::outcomes::writing_and_reporting_take_no_memory
        ;;
    ring_tool)
        build ring_tool --help
        program=$top/crates/ring_tool/out/ring_tool
        cp "$top/examples/first.json" "$out/first.json"
        cp "$top/examples/first.json" "$out/input"
        try_program step 3 3 0,2,0 0,0,2
        try_program new 3:3 5:6
        try_program run first.json
        try_program run first.json --history first.txt
        try_program run --quiet -
        try_program run - --history -
        "$program" run "$out/first.json" --history "$out/first.txt" >/dev/null
        try_program check first.txt
        try_program upgrade first.txt upgraded.txt
        try_program picture first.txt first.svg
        cp "$out/first.txt" "$out/input"
        try_program check -
        ;;
    *) try_crate "$crate" memory ;;
    esac
done
exit "$failed"
