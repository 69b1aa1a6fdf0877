# check.sh: read by native.sh and packaging.sh. One line a test, and what a failed one printed.

root=$(CDPATH='' cd "$(dirname "$0")/.." && pwd) || exit 1
. "$root/tests/built.sh"
scratch=$(mktemp -d) || exit 1
trap 'rm -rf "$scratch"' EXIT
trap 'exit 1' HUP INT TERM
failed=0

# check NAME COMMAND..
check() {
    name=$1
    shift
    if "$@" >"$scratch/log" 2>&1; then
        echo "passed  $name"
    else
        echo "FAILED  $name"
        cat "$scratch/log"
        failed=1
    fi
}

# check_with TOOL NAME COMMAND..: skipped where the tool is missing.
check_with() {
    tool=$1
    shift
    if command -v "$tool" >/dev/null; then
        check "$@"
    else
        echo "skipped $1: $tool is missing"
    fi
}

[ -f "$archive" ] || check 'archive' build_archive
