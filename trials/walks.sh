#!/bin/sh
# Compares proved programs with each other, for a release: each kernel with the plain program on thousands of rings, a ring
# in one byte each with the same in two, each group of each small state on a book with its machines one by one, each state
# of small rings with the laws, and the readers with slow grammars on damaged texts. The program stands as text in
# trials/walks, and is proved before it is built. Prints how many were compared; the status is 1 where two answers differ.
# Needs rt and awk.
set -eu
. "$(dirname "$0")/../tools/common.sh"
program "$top" walks "$out" --help
exec "$out/walks"
