#!/bin/sh
# deploy.sh FOLDER VERSION: puts a version in place, one step after the other. Two at once would mix them.
set -eu
[ "$#" -eq 2 ] || { echo "usage: wozgirt lock deploy -- $0 FOLDER VERSION" >&2; exit 64; }
printf 'deploying %s with token %s\n' "$2" "${WOZGIRT_TOKEN:?run me behind wozgirt lock}"
for part in code data pages; do
    printf '%s\n' "$2" >"$1/$part"
    sleep 0.2
done
printf 'deployed %s\n' "$2"
