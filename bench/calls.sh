#!/bin/sh
# Counts the instructions of calls from C, by 16 machines: of a granted pass of a ring with no till, and of one with a till, without
# the caller's loop; and of an acquire and a release of a lock, together, beside two such passes. Each is the difference between
# two runs of `calls.c`, by the calls that the longer one has more. Word: a libwozgirt.a in place of one that is proved and built
# here. Needs rt, valgrind, a C compiler and awk.
set -eu
. "$(dirname "$0")/../tools/common.sh"
library=${1:-}
if [ -z "$library" ]; then
    echo "proving and building wozgirt_c"
    (cd "$top/crates/wozgirt_c" && rt lib >"$out/wozgirt_c-build.log" 2>&1) || { cat "$out/wozgirt_c-build.log"; exit 1; }
    "$top/release/library" "$out/calls"
    library=$out/calls/libwozgirt.a
fi
cc -std=c11 -Wall -Wextra -Werror "-I$top/clients/c" -O2 -o "$out/calls-program" "$top/bench/calls.c" "$library"

# of WHAT COUNT: the instructions of a whole run
of() {
    valgrind --tool=callgrind --callgrind-out-file="$out/callgrind-$1.out" "$out/calls-program" "$1" 16 "$2" 2>&1 | awk '/Collected/ { print $NF }'
}

# (a list of events moves as it grows by doubling: between these two it does not)
each() {
    echo "$(of "$1" 40000) $(of "$1" 60000)" | awk '{ printf "%.1f\n", ($2 - $1) / 20000 }'
}

loop=$(each loop | awk '{ print $1 - 2 }') # (the function that does nothing has two instructions)
idle=$(each idle)
till=$(each till)
locks=$(each locks)
awk -v loop="$loop" -v idle="$idle" -v till="$till" -v locks="$locks" 'BEGIN {
    printf "the loop with its call: %.1f\n", loop
    printf "a pass with no till: %.1f\n", idle - loop
    printf "a pass with a till: %.1f\n", till - loop
    printf "an acquire and a release: %.1f, %.1f more than two passes with a till\n", locks - loop, locks - loop - 2 * (till - loop)
}'
