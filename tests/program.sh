#!/usr/bin/env bash
# Runs the proved program, which is built if it is missing, as its surroundings can make it end or wait: input and output
# that fail, an argument, input that pauses, and input that comes in pieces. One line a test. Exit 1 if one failed.
set -u
cd "$(dirname "$0")/.." || exit 1
root=$PWD
. tests/built.sh
work=$(mktemp -d) || exit 1
trap 'rm -rf "$work"' EXIT
failed=0
[ -x "$cabinet" ] || build_cabinet || exit 1
# No test waits for ever on a program that does not end.
run=(timeout 60 "$cabinet")

# said NAME OUTPUT ERROR: passed if the last run wrote exactly this to its two outputs (work/out and work/err).
said() {
    if [ "$(cat "$work/out")" = "$2" ] && [ "$(cat "$work/err")" = "$3" ]; then
        echo "passed  $1"
    else
        echo "FAILED  $1"
        head -n 5 "$work/out" "$work/err"
        failed=1
    fi
}

"${run[@]}" </ >"$work/out" 2>"$work/err"
said "a directory as input" "" "cabinet: standard input: Is a directory"

"${run[@]}" <&- >"$work/out" 2>"$work/err"
said "a closed input" "" "cabinet: standard input: Bad file descriptor"

: >"$work/out"
"${run[@]}" <crates/cabinet/stdin >/dev/full 2>"$work/err"
said "an output that is full" "" "cabinet: standard output: No space left on device"

# Behind a write that failed nothing more is read: this input has no end.
yes | "${run[@]}" >/dev/full 2>"$work/err"
[ "${PIPESTATUS[1]}" -eq 0 ] || echo "it did not end" >>"$work/err"
said "an output that is full, and an input without end" "" "cabinet: standard output: No space left on device"

"${run[@]}" --help <crates/cabinet/stdin >"$work/out" 2>"$work/err"
said "an argument" "" "usage: cabinet < COMMANDS > LISTING"

# An input that gives eight bytes, a command and three bytes of a second, and whose next read fails: a pipe that a writer
# holds open, set not to wait.
mkfifo "$work/short"
exec 3<>"$work/short"
printf '\000\000\000\000\340\021\000\000' >&3
dd iflag=nonblock count=0 status=none <&3
"${run[@]}" <&3 >"$work/out" 2>"$work/err"
exec 3>&-
said "a command cut by a read that fails" "1 00000000E0 ok" "cabinet: standard input: Resource temporarily unavailable"

# The same eight bytes and then the end of the input.
printf '\000\000\000\000\340\021\000\000' | "${run[@]}" >"$work/out" 2>"$work/err"
said "a command cut by the end of the input" "1 00000000E0 ok
2 110000 refused 15" ""

# Each line comes while the input stays open and the next command is not yet sent.
mkfifo "$work/commands" "$work/lines"
"${run[@]}" <"$work/commands" >"$work/lines" 2>"$work/err" &
program=$!
exec 3>"$work/commands" 4<"$work/lines"
: >"$work/out"
for command in '\000\000\000\000\340' '\021\000\000\000\000'; do
    printf "$command" >&3
    read -r -t 20 -u 4 line || line="no line yet"
    echo "$line" >>"$work/out"
done
exec 3>&-
cat <&4 >>"$work/out"
exec 4<&-
wait "$program"
said "answers while the input pauses" "1 00000000E0 ok
2 1100000000 ok" ""

# A pipe that dd sets to direct gives each of its writes to a read of its own.
for stored in crates/cabinet tests/listings/cut; do
    for size in 1 3 7; do
        dd bs=$size oflag=direct status=none <"$stored/stdin" 2>/dev/null | "${run[@]}" >"$work/out" 2>"$work/err"
        said "$stored by $size" "$(cat "$stored/stdout")" ""
    done
done
exit $failed
