#!/bin/sh
# Has clients on threads take turns, scene by scene (all, two idle, one alone, some slow, faults, early stops, an unsettled
# start), and then 1,000,000 turns of four clients at forty rings; looks through each closed history for what was granted
# while a client waited. The program stands as text in trials/turns, and is proved before it is built. Prints a line for each
# ring; the status is 1 where a client did not have all of its turns, had its machine granted while it waited, or was passed
# by too often, and a wake-up that is lost shows as a run that does not end. Needs rt and awk.
set -eu
. "$(dirname "$0")/../tools/common.sh"
program "$top" turns "$out" --help
exec "$out/turns"
