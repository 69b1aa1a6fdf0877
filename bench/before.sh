#!/bin/sh
# before.sh [COMMIT]: prints a table of each call by the archive of COMMIT ("before") and by that of this tree
# ("after"): times, instructions and ratios. Without valgrind the instructions are left out. The first run for a commit
# proves its tree; the archive of one that is written for an older Rattle has to be at bench/target/before/COMMIT/archive.a.
# COMMIT has the fifteen calls and the move list, and both answer alike. An earlier one gets images of its own length,
# 21,216 or 21,024 bytes, and no figures of calls that it lacks or answers otherwise; one from before tables, in a state
# with a table, those of the same store without it.
set -eu
cd "$(dirname "$0")/.."
. bench/earlier.sh

# The last commit whose calls answer a refusal as one of their answers.
beside "${1:-8163796e7f8c32af567bf1a4b1952804204e2783}" before
