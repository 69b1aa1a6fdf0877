#!/bin/sh
# differential.sh [SEED] [CALLS]
# differential.sh move-lists [SEED] [IMAGES]
# Compares the archive with the model, call by call: the answer and every byte of the image and of a lent list; with
# move-lists, that call alone. Exit 1 on a difference or on a class of cases that did not occur. NOLPIGAT_LIB_DIR, a
# whole path, names another folder of libnolpigat.a.
set -eu
cd "$(dirname "$0")/.."
root=$PWD
. tests/built.sh
[ -n "${NOLPIGAT_LIB_DIR-}" ] || [ -f "$archive" ] || build_archive
cargo build --release --offline --quiet -j1 --manifest-path differential/Cargo.toml
if [ "${1-}" = move-lists ]; then
    exec differential/target/release/differential move-lists "${2:-1}" "${3:-1000000}"
fi
exec differential/target/release/differential "${1:-1}" "${2:-2500000}"
