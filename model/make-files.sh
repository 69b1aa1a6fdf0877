#!/bin/sh
# Makes the stored command files and their listings anew, from fixed seeds:
# tests/listings/KIND/stdin and stdout; tests/older/EDITION/earlier, lines of a
# table where the edition has tables, the image that they leave, and stdin and
# stdout, which go on from there.
set -eu
cd "$(dirname "$0")"
cargo build --release --offline --quiet
while read -r kind seed count; do
    folder=../tests/listings/$kind
    mkdir -p "$folder"
    target/release/generate "$kind" "$seed" "$count" > "$folder/stdin"
    target/release/listing < "$folder/stdin" > "$folder/stdout"
done <<LIST
mixed 101 3000
reorganise 102 3000
failures 114 3000
conflicts 104 2500
deletes 105 2500
edges 106 3000
noise 107 2000
flips 108 2500
long 109 4000
refusals 110 3000
pairs 111 3000
sweep 112 3000
LIST
# More commands than the program reads at a time, and three bytes of one more.
mkdir -p ../tests/listings/cut
target/release/generate mixed 113 2000 | head -c 9998 > ../tests/listings/cut/stdin
target/release/listing < ../tests/listings/cut/stdin > ../tests/listings/cut/stdout
while read -r edition kind seed earlier commands; do
    folder=../tests/older/$edition
    mkdir -p "$folder"
    target/release/older "$edition" "$kind" "$seed" "$earlier" "$commands" "$folder"
    target/release/listing "$folder/image" < "$folder/stdin" > "$folder/stdout"
done <<LIST
base mixed 2399 400 1200
rails mixed 1977 400 1200
below-wire mixed 2402 400 1200
by-tables mixed 2426 400 1200
LIST
target/release/count ../tests/listings/*/stdin
