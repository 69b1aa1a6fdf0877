# earlier.sh: read by before.sh and settles.sh, in the repository's folder. The archive of an earlier commit, and a
# program that runs it beside the archive of this tree.

root=$PWD
. tests/built.sh

fail() {
    echo "${0##*/}: $1" >&2
    exit 1
}

# needs TOOL..
needs() {
    for tool; do
        command -v "$tool" >/dev/null || fail "$tool is missing"
    done
}

# Proves the tree of the commit and builds its archive, in a folder outside this tree, which is removed: rt ci refuses a
# second crates.txt in a checkout, and files of Rattle that no crate of it has.
build() (
    needs tar rt
    tree=$(mktemp -d) || exit 1
    trap 'rm -rf "$tree"' EXIT
    trap 'exit 1' HUP INT TERM
    git archive --output="$tree/tree.tar" "$commit" && tar -x -C "$tree" -f "$tree/tree.tar" && rm "$tree/tree.tar" || exit 1
    grep -Eq '^nolpigat +staticlib( |:)' "$tree/crates.txt" ||
        fail "$commit is written for an older Rattle, which this rt ($(rt version)) cannot build: its crates.txt names no static library. Build its archive with the toolchain of its time, and put it at $before/archive.a"
    root=$tree
    . tests/built.sh
    build_archive >&2 && mkdir -p "$before" && cp "$archive" "$before/archive.a"
)

# Makes libbefore.a, in which the functions have other names, so that both archives link into one program.
rename() {
    nm -g --defined-only "$before/archive.a" >"$before/symbols" &&
        awk '$3 ~ /^nolpigat_/ { print $3, "before_" $3 }' "$before/symbols" >"$before/names" &&
        [ -s "$before/names" ] &&
        objcopy --redefine-syms="$before/names" "$before/archive.a" "$before/libbefore.a"
}

# beside COMMIT PROGRAM: runs the program with the archives of the commit and of this tree.
beside() {
    needs git nm awk objcopy cargo
    commit=$(git rev-parse --quiet --verify "$1^{commit}") || fail "$1 is no commit of this repository"
    before=$PWD/bench/target/before/$commit
    [ -f "$before/archive.a" ] || build || fail "the archive of $commit is not built"
    rename || fail "the functions of $before/archive.a are not renamed"
    [ -n "${NOLPIGAT_LIB_DIR-}" ] || [ -f "$archive" ] || build_archive >&2
    NOLPIGAT_BEFORE_DIR=$before cargo build --release --offline --quiet -j1 --manifest-path bench/Cargo.toml \
        --features before --bin "$2"
    exec "bench/target/release/$2"
}
