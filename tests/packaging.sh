#!/bin/sh
# Installs the archive into an empty folder and builds a small project of each kind with it: plain cc, pkg-config, CMake
# and Rust. One line a test. Exit 1 on any failure. Where cmake or pkg-config is missing, its test is skipped.
set -u
. "$(dirname "$0")/check.sh"
projects=$root/tests/packaging
prefix=$scratch/prefix
version=$(sed -n 's/^#define NOLPIGAT_VERSION "\(.*\)"$/\1/p' "$root/include/nolpigat.h")

# says PROGRAM: the project's program prints the version and the record.
says() {
    [ "$("$1")" = "nolpigat $version: value 1234" ]
}

# A relative prefix begins in the current folder, and what is installed is what the repository has.
install_here() (
    cd "$scratch" && "$root/install.sh" prefix && cmp "$root/include/nolpigat.h" prefix/include/nolpigat.h &&
        cmp "$archive" prefix/lib/libnolpigat.a && ! grep -r '@' prefix/lib/pkgconfig prefix/lib/cmake
)

install_staged() {
    DESTDIR=$scratch/stage "$root/install.sh" /opt/nolpigat &&
        (cd "$prefix" && find . | sort) >"$scratch/here" && (cd "$scratch/stage/opt/nolpigat" && find . | sort) >"$scratch/staged" &&
        diff "$scratch/here" "$scratch/staged"
}

install_refuses() {
    ! "$root/install.sh" && ! "$root/install.sh" ''
}

# The version of the wrapper and the newest one of the change log are the header's.
versions() {
    grep -x "version = \"$version\"" "$root/bindings/rust/Cargo.toml" &&
        [ "$(sed -n 's/^## \([0-9.]*\).*/\1/p' "$root/CHANGELOG.md" | head -n 1)" = "$version" ]
}

plain() {
    cc "-I$prefix/include" "$projects/program.c" "-L$prefix/lib" -lnolpigat -o "$scratch/plain" && says "$scratch/plain"
}

by_pkg_config() {
    export PKG_CONFIG_PATH="$prefix/lib/pkgconfig"
    [ "$(pkg-config --modversion nolpigat)" = "$version" ] && flags=$(pkg-config --cflags --libs nolpigat) &&
        cc "$projects/program.c" $flags -o "$scratch/by_pkg_config" && says "$scratch/by_pkg_config"
}

by_cmake() {
    cmake -S "$projects/cmake" -B "$scratch/cmake" "-DCMAKE_PREFIX_PATH=$prefix" &&
        cmake --build "$scratch/cmake" && says "$scratch/cmake/program"
}

# cargo_run FOLDER: with the archive in this folder, from the folder of the installation.
cargo_run() (
    cd "$scratch" && NOLPIGAT_LIB_DIR=$1 CARGO_TARGET_DIR=$scratch/rust cargo run --offline --quiet \
        --manifest-path "$projects/rust/Cargo.toml"
)

by_cargo() {
    [ "$(cargo_run prefix/lib)" = 'value 1234' ] && [ "$(cargo_run "$prefix/lib")" = 'value 1234' ]
}

# A folder without the archive is told by its whole path.
by_cargo_missing() {
    ! cargo_run nowhere 2>"$scratch/error" && grep -F "$scratch/nowhere/libnolpigat.a is missing" "$scratch/error"
}

check 'install into a folder' install_here
check 'install with DESTDIR' install_staged
check 'install without a folder is refused' install_refuses
check 'versions are the same' versions
check 'project with plain cc' plain
check_with pkg-config 'project with pkg-config' by_pkg_config
check_with cmake 'project with CMake' by_cmake
check 'project in Rust, relative and whole path' by_cargo
check 'project in Rust, archive missing' by_cargo_missing
exit $failed
