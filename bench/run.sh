#!/bin/sh
# run.sh: prints the table of docs/PERFORMANCE.md. Without valgrind the instructions are left out.
set -eu
cd "$(dirname "$0")/.."
root=$PWD
. tests/built.sh
[ -n "${NOLPIGAT_LIB_DIR-}" ] || [ -f "$archive" ] || build_archive >&2
cargo build --release --offline --quiet -j1 --manifest-path bench/Cargo.toml
exec bench/target/release/bench
