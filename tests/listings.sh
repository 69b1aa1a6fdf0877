#!/bin/sh
# Runs the proved program, which is built if it is missing, on the stored command files and compares what it writes with
# their listings, byte by byte. One line a file. Exit 1 on a difference or where a file is missing.
set -u
cd "$(dirname "$0")/.." || exit 1
root=$PWD
. tests/built.sh
listing=$(mktemp) || exit 1
trap 'rm -f "$listing"' EXIT
failed=0
[ -x "$cabinet" ] || build_cabinet || exit 1
# The kinds by name, so that one whose files are gone is missed.
for kind in conflicts cut deletes edges failures flips long mixed noise pairs refusals reorganise sweep; do
    stored=tests/listings/$kind
    if "$cabinet" <"$stored/stdin" >"$listing" && cmp "$listing" "$stored/stdout"; then
        echo "passed  listing of $kind"
    else
        echo "FAILED  listing of $kind"
        failed=1
    fi
done
exit $failed
