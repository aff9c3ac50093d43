#!/bin/sh
# Runs drawn settings (rings of all sizes, scripts with extreme numbers, drawn plans, injectors), checks each history that
# was saved, and compares it, and damaged copies of it, with a second checker written from docs/FORMATS.md alone
# (small_checker.py): the program has to give the same answer to each. Prints how many were tried, or the first
# difference and how to repeat it; then the status is 1. Words: the minutes (2), and the first seed (drawn).
# Needs rt and python3.
set -eu
. "$(dirname "$0")/../tools/common.sh"
build ring_tool --help
mkdir -p "$out/soak"
exec env PYTHONDONTWRITEBYTECODE=1 python3 "$top/trials/soak.py" "$top/crates/ring_tool/out/ring_tool" "$out/soak" "${1:-2}" "${2:-$(date +%s)}"
