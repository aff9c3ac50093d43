#!/bin/sh
# Runs the C programs of examples/c and the scene of trials/languages_memory.c under the sanitizers of addresses and leaks, of
# undefined behaviour and of threads, and under valgrind's memcheck and helgrind. Then what has to be found: a close that frees
# nothing, as a leak, by both, and a ring that threads use with no mutex, as a race in the library, by helgrind. What is not installed
# is skipped, and named; the last line is `N passed, M failed`.
#
# The sanitizer of threads sees what the C program reads and writes, its locks, and what the library asks of the C library;
# helgrind sees what the library itself reads and writes too. Word: a folder with libwozgirt.a, as `release/library` makes it, in
# place of a library that is proved and built here. Needs a C compiler.
set -u
. "$(dirname "$0")/../tools/common.sh"
folder=$out/sanitizers
mkdir -p "$folder"
library=${1:-$folder}/libwozgirt.a
if [ -z "${1:-}" ]; then
    (cd "$top/crates/wozgirt_c" && rt lib) >"$out/wozgirt_c-build.log" 2>&1 || { cat "$out/wozgirt_c-build.log"; exit 1; }
    "$top/release/library" "$folder" || exit 1
fi
strict="-std=c11 -Wall -Wextra -Wpedantic -Werror -I$top/clients/c -g -O1 -pthread"
most=600
passed=0 failed=0

# told WHAT WANTED STATUS LOG: counts it. WANTED is `clean`, or `leak` or `race` where one has to be found
told() {
    found=clean
    grep -q -e 'detected memory leaks' -e 'definitely lost' "$4" && found=leak
    grep -q 'Possible data race' "$4" && grep -q ': wozgirt_' "$4" && found=race
    case $2:$found:$3 in
        clean:clean:0 | leak:leak:[1-9]* | race:race:[1-9]*)
            passed=$((passed + 1))
            echo "$1: $2"
            return
            ;;
    esac
    failed=$((failed + 1))
    echo "FAILED: $1: status $3"
    tail -n 40 "$4"
}

# built NAME FLAGS SOURCE..: a program of the folder, or what the compiler says
built() {
    name=$1 flags=$2
    shift 2
    # shellcheck disable=SC2086 # words
    cc $strict $flags -o "$folder/$name" "$@" "$library" >"$folder/$name.log" 2>&1 && return
    told "cc $name" clean 1 "$folder/$name.log"
    return 1
}

# ran WHAT WANTED COMMAND ..
ran() {
    what=$1 wanted=$2
    shift 2
    timeout "$most" "$@" >"$folder/log" 2>&1
    told "$what" "$wanted" $? "$folder/log"
}

# words NAME: the words of a program
words() {
    [ "$1" != four_threads ] || echo "$folder/history.txt"
    [ "$1" != journal ] || mktemp -d "$folder/chain.XXXXXX"
}

# source_of NAME: where a program is, with what it includes
source_of() {
    if [ "$1" = languages_memory ]; then echo "$top/trials/$1.c"; else echo "$top/examples/c/$1.c"; fi
}

# sanitized NAME KIND
sanitized() {
    built "$1-$2" "-fsanitize=$2 -fno-sanitize-recover=all" "$(source_of "$1")" || return
    # shellcheck disable=SC2046 # no word, or one
    ran "$1, sanitizer of $2" clean "$folder/$1-$2" $(words "$1")
}

# valgrinded NAME TOOL
valgrinded() {
    built "$1" "" "$(source_of "$1")" || return
    # shellcheck disable=SC2046 # no word, or one
    ran "$1, $2" clean valgrind -q "--tool=$2" --error-exitcode=9 $(leaks "$2") "$folder/$1" $(words "$1")
}

leaks() {
    [ "$1" != memcheck ] || echo "--leak-check=full --show-leak-kinds=all --errors-for-leak-kinds=all"
}

# kept NAME: the same program with a close that frees nothing
kept() {
    closes="-Wl,--wrap=wozgirt_close,--wrap=wozgirt_locks_close"
    built "$1-kept" "$closes -fsanitize=address" "$(source_of "$1")" "$top/trials/close_nothing.c" &&
        ran "$1 with a close that frees nothing, sanitizer of leaks" leak "$folder/$1-kept"
    command -v valgrind >/dev/null || return
    built "$1-kept" "$closes" "$(source_of "$1")" "$top/trials/close_nothing.c" &&
        ran "$1 with a close that frees nothing, memcheck" leak valgrind -q --error-exitcode=9 --leak-check=full "$folder/$1-kept"
}

# can KIND: a program with this sanitizer can be made and run here
can() {
    echo 'int main(void) { return 0; }' >"$folder/probe.c"
    cc "-fsanitize=$1" -o "$folder/probe" "$folder/probe.c" >/dev/null 2>&1 && "$folder/probe" && return
    echo "skipped: the sanitizer of $1"
    return 1
}

for kind in address,undefined thread; do
    can "$kind" || continue
    for name in refusals journal locks four_threads waits languages_memory; do
        sanitized "$name" "$kind"
    done
done
if command -v valgrind >/dev/null; then
    for name in refusals journal locks four_threads waits languages_memory; do
        valgrinded "$name" memcheck
    done
    for name in four_threads waits; do
        valgrinded "$name" helgrind
    done
    built without_mutex "" "$top/trials/without_mutex.c" &&
        ran "a ring without a mutex, helgrind" race valgrind -q --tool=helgrind --error-exitcode=9 "$folder/without_mutex"
else
    echo "skipped: valgrind"
fi
for name in languages_memory waits; do
    kept "$name"
done
echo "$passed passed, $failed failed"
[ "$failed" -eq 0 ]
