#!/bin/sh
# settles.sh [COMMIT]: prints a table of 10,000 settles by the archive of COMMIT ("before"), by that of this tree
# ("after") and by the model: times, instructions of one settle, and ratios. Without valgrind the instructions are left
# out. The first run for a commit proves its tree; the archive of one that is written for an older Rattle has to be at
# bench/target/before/COMMIT/archive.a.
set -eu
cd "$(dirname "$0")/.."
. bench/earlier.sh

# The last commit whose calls answer a refusal as one of their answers.
beside "${1:-8163796e7f8c32af567bf1a4b1952804204e2783}" settles
