#!/bin/sh
# install.sh PREFIX: puts the header, the archive, the pkg-config file and the CMake package below PREFIX, which begins
# in the current folder if it is relative. If DESTDIR is set, it stands before PREFIX.
set -eu

fail() {
    echo "install.sh: $1" >&2
    exit 1
}

[ $# -eq 1 ] && [ -n "$1" ] || fail 'usage: install.sh PREFIX'
case $1 in
/*) prefix=$1 ;;
*) prefix=$PWD/$1 ;;
esac
to=${DESTDIR-}$prefix
root=$(CDPATH='' cd "$(dirname "$0")" && pwd)
header=$root/include/nolpigat.h
. "$root/tests/built.sh"
[ -f "$archive" ] || fail "$archive is missing: run 'rt lib --cpu x86-64' in $root/crates/nolpigat"
# The version stands in the header and nowhere else.
version=$(sed -n 's/^#define NOLPIGAT_VERSION "\([0-9.]*\)"$/\1/p' "$header")
[ -n "$version" ] || fail "$header has no version"

# put FILE FOLDER [NAME]: a file that all may read, with the version filled in.
put() {
    mkdir -p "$2"
    sed "s/@VERSION@/$version/g; s/@MAJOR@/${version%%.*}/g" "$1" >"$2/${3-${1##*/}}"
    chmod 644 "$2/${3-${1##*/}}"
}

put "$header" "$to/include"
put "$root/packaging/nolpigat.pc.in" "$to/lib/pkgconfig" nolpigat.pc
put "$root/packaging/nolpigat-config.cmake" "$to/lib/cmake/nolpigat"
put "$root/packaging/nolpigat-config-version.cmake.in" "$to/lib/cmake/nolpigat" nolpigat-config-version.cmake
cp "$archive" "$to/lib/libnolpigat.a"
chmod 644 "$to/lib/libnolpigat.a"
echo "nolpigat $version is in $to"
