#!/bin/sh
# compare.sh [FIRST_SEED] [FILES_PER_KIND] [COMMANDS]
# Compares the program with the model over generated files of every kind and over
# bad inputs: shorter than a command, and noise that ends within one. Exit 1 on a
# difference. PROGRAM names another program than the proved one.
set -eu
case ${PROGRAM-} in
/* | '') ;;
*) PROGRAM=$PWD/$PROGRAM ;;
esac
cd "$(dirname "$0")"
cargo build --release --offline --quiet
if [ -z "${PROGRAM-}" ]; then
    root=$PWD/..
    . ../tests/built.sh
    PROGRAM=$cabinet
    [ -x "$PROGRAM" ] || build_cabinet
fi
exec target/release/compare "$PROGRAM" all "${1:-1}" "${2:-10}" "${3:-2000}"
