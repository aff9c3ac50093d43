#!/bin/sh
# Compares what is promised now with what was promised at a commit: prints each clause of a function, trait or type that
# is gone (-) or new (+), and how many there are. Two words more name a crate as it was and as it is: a clause that only
# moved from one crate into the other is not told. tools/clauses.sh COMMIT [OLD_CRATE NEW_CRATE]..
# It reads the sources alone: what the words of a clause mean stands in specs/, which `git diff` compares.
set -eu
. "$(dirname "$0")/common.sh"
clone "$1"
shift
moves=
while [ $# -gt 1 ]; do
    moves="$moves;s/\b$1\b/$2/g"
    shift 2
done
python3 "$top/tools/clauses.py" "$room/clone/crates" | sed "$moves" | sort -u >"$room/before"
python3 "$top/tools/clauses.py" "$top/crates" | sed "$moves" | sort -u >"$room/now"
diff "$room/before" "$room/now" | sed -n 's/^< /- /p; s/^> /+ /p'
echo "$(wc -l <"$room/before") clauses before, $(wc -l <"$room/now") now"
