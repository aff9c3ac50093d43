#!/bin/sh
# Tries what the documents say: runs each command of the program that stands in a block, compares what it prints with the
# block that follows, plays the tables of refusals, follows each link, and looks for each name in backticks in the sources.
# Prints what differs, and how much was tried; the status is 1 where something differs. A word names a program to try in
# the place of the one that is built here. Needs rt, git and python3.
set -eu
. "$(dirname "$0")/common.sh"
tool=${1:-$top/crates/ring_tool/out/ring_tool}
[ -x "$tool" ] || build ring_tool --version
exec env PYTHONDONTWRITEBYTECODE=1 python3 "$top/tools/documents.py" "$top" "$tool"
