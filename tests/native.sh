#!/bin/sh
# Tests the header, the archive's symbols, the C examples, the recipes, the Rust wrapper and the packaging with
# libnolpigat.a, which is built if it is missing. One line a test, and what a failed one printed. Exit 1 on any failure.
# Clang, cmake and pkg-config are used if present; the rest is needed.
set -u
. "$(dirname "$0")/check.sh"
program=$scratch/program
recipes='boot charge exchange in_the_way copy_and_switch supply table convert'

# stored COMMAND..: it succeeds with every stored command file as its input.
stored() {
    for file in "$root"/crates/cabinet/stdin "$root"/tests/listings/*/stdin; do
        "$@" <"$file" || return 1
    done
}

# lists COMMAND..: it prints the stored listing of every stored command file.
lists() {
    for folder in "$root"/crates/cabinet "$root"/tests/listings/*; do
        "$@" <"$folder/stdin" >"$scratch/listing" && cmp "$scratch/listing" "$folder/stdout" || return 1
    done
}

# goes_on COMMAND..: with the image of each stored case, which it converts, it prints that case's listing, and it takes no
# file of another length.
goes_on() {
    for folder in "$root"/tests/older/*; do
        "$@" "$folder/image" <"$folder/stdin" >"$scratch/listing" && cmp "$scratch/listing" "$folder/stdout" || return 1
        "$@" "$folder/stdin" </dev/null
        [ $? -eq 2 ] || return 1
    done
}

# prints FILE COMMAND..: it prints what the file has.
prints() {
    expected=$1
    shift
    "$@" >"$scratch/printed" && diff "$expected" "$scratch/printed"
}

# compile ARGUMENT..: with the compiler, the standard and the language of `native`.
compile() {
    "$compiler" "-std=$standard" -Wall -Wextra -pedantic -Werror "-I$root/include" -x "$language" "$@"
}

# build FILE ARGUMENT..
build() {
    source=$1
    shift
    compile "$source" -x none "$archive" "$@" -o "$program"
}

header() {
    printf '#include <nolpigat.h>\n#include <nolpigat.h>\n' | compile -fsyntax-only -
}

# An answer that is not looked at is an error with -Werror, unless the includer has defined the macro away.
must_check() {
    printf '#include <nolpigat.h>\nint main(void) { nolpigat_settle(0, 0); }\n' >"$scratch/unchecked"
    ! compile "$scratch/unchecked" -c -o "$program" && compile -DNOLPIGAT_MUST_CHECK= "$scratch/unchecked" -c -o "$program"
}

first() {
    build "$root/examples/c/first.c" && [ "$("$program")" = 'record 9: 1234' ]
}

# The first program of README.md, with the compiler's warnings.
readme() {
    sed -n '/^```c$/,/^```$/p' "$root/README.md" | sed '/^```/d' >"$scratch/readme.c" &&
        build "$scratch/readme.c" && [ "$("$program")" = 'value 1234 from card 1' ]
}

listing() {
    build "$root/examples/c/listing.c" && lists "$program" && goes_on "$program"
}

moves() {
    build "$root/examples/c/moves.c" && [ "$("$program")" = "$(printf 'card 1, block 1\ncard 2, block 1')" ]
}

calls() {
    build "$root/tests/calls.c" && stored "$program"
}

queries() {
    build "$root/tests/queries.c" && stored "$program"
}

move_list() {
    build "$root/tests/move_list.c" && "$program"
}

tables() {
    build "$root/tests/tables.c" && "$program"
}

returns() {
    build "$root/tests/returns.c" && "$program"
}

convert() {
    build "$root/tests/convert.c" || return 1
    for folder in "$root"/tests/older/*; do
        "$program" "$folder/image" || return 1
    done
}

texts() {
    build "$root/tests/texts.c" && prints "$root/tests/texts.txt" "$program"
}

stack() {
    build "$root/tests/stack.c" -Wl,-z,now && stored "$program"
}

# recipe COMMAND..: it prints the stored output of the recipe, in an empty folder.
recipe() {
    rm -rf "$scratch/folder" && mkdir "$scratch/folder" &&
        prints "$root/tests/recipes/$recipe.txt" "$@" "$scratch/folder"
}

c_recipe() {
    build "$root/examples/recipes/$recipe.c" && recipe "$program"
}

# native COMPILER STANDARD LANGUAGE TEST..
native() {
    compiler=$1 standard=$2 language=$3
    shift 3
    for test; do
        check "$test, $compiler $standard" "$test"
    done
}

# The archive needs no function but memcpy and memset.
undefined_symbols() {
    nm -g --defined-only "$archive" | awk 'NF == 3 { print $3 }' | sort -u >"$scratch/defined" &&
        nm -u "$archive" | awk '$1 == "U" { print $2 }' | sort -u >"$scratch/undefined" &&
        [ -s "$scratch/undefined" ] && [ -s "$scratch/defined" ] &&
        ! comm -13 "$scratch/defined" "$scratch/undefined" | grep -v -x -e memcpy -e memset
}

# It has no data that can be written, so that the image is all its state.
no_state() {
    size -A "$archive" | awk '$1 ~ /^\.(data|bss|tdata|tbss)/ && $1 !~ /^\.data\.rel\.ro/ && $2 > 0' >"$scratch/state" &&
        size -A "$archive" | grep -q '^\.text' && ! grep . "$scratch/state"
}

# The archive has the functions that the header declares, which are those of the wrapper, and no other name.
defined_symbols() {
    nm -g --defined-only "$archive" | awk 'NF == 3 { print $3 }' | sort >"$scratch/defined" &&
        sed -n 's/^uint32_t \(nolpigat_[a-z0-9_]*\)(.*/\1/p' "$root/include/nolpigat.h" | sort >"$scratch/declared" &&
        sed -n 's/^ *pub fn \(nolpigat_[a-z0-9_]*\)(.*/\1/p' "$root/bindings/rust/src/ffi.rs" | sort >"$scratch/wrapped" &&
        [ -s "$scratch/declared" ] && diff "$scratch/declared" "$scratch/defined" &&
        diff "$scratch/declared" "$scratch/wrapped"
}

# rust SUBCOMMAND ARGUMENT..
rust() {
    subcommand=$1
    shift
    cargo "$subcommand" --offline --quiet --manifest-path "$root/bindings/rust/Cargo.toml" "$@"
}

rust_listing() {
    lists rust run --example listing && goes_on rust run --example listing --
}

rust_pages() {
    RUSTDOCFLAGS='-D warnings' rust doc
}

rust_format() {
    cargo fmt --check --manifest-path "$root/bindings/rust/Cargo.toml"
}

tests='header must_check first listing moves calls queries move_list tables returns convert texts'
native gcc c99 c $tests readme stack
native gcc c11 c header
native g++ c++17 c++ $tests
if command -v clang >/dev/null; then
    native clang c99 c $tests
    native clang c11 c header
    native clang++ c++17 c++ $tests
else
    echo 'skipped C and C++ with clang: clang is missing'
fi
check 'undefined symbols of the archive' undefined_symbols
check 'functions of the archive' defined_symbols
check 'no state in the archive' no_state
compiler=gcc standard=c99 language=c
for recipe in $recipes; do
    check "recipe $recipe, C" c_recipe
done
RUSTFLAGS="${RUSTFLAGS-} -D warnings"
export RUSTFLAGS
check_with rustfmt 'format, Rust' rust_format
check 'pages, Rust' rust_pages
check 'cargo test' rust test
check 'listing, Rust' rust_listing
for recipe in $recipes; do
    check "recipe $recipe, Rust" recipe rust run --example "$recipe" --
done
"$root/tests/packaging.sh" || failed=1
exit $failed
