#!/bin/sh
# Compares what the proved program `losses` and the plain C program print of broken inputs: a byte changed or the last bytes
# left out, from a file and through a pipe in small pieces. Run it after `rt run` in crates/losses.
set -eu
here=$(cd "$(dirname "$0")" && pwd)
proved=$here/../crates/losses/out/losses
count=${1:-300} size=${2:-200000}
[ -x "$proved" ] || { echo "no crates/losses/out/losses: run 'rt run </dev/null' in crates/losses first" >&2; exit 2; }
room=$(mktemp -d)
trap 'rm -rf "$room"' EXIT
gcc -O2 "-I$here/../include" "-I$here/../host" -o "$room/make_records" "$here/make_records.c"
gcc -O2 "-I$here/../include" "-I$here/../host" -o "$room/plain" "$here/losses_plain.c"
: >"$room/input"
seed=0
while [ "$seed" -le "$count" ]; do
    # the first input is empty
    [ "$seed" -eq 0 ] || "$room/make_records" broken $((1 + size * seed / count)) "$seed" >"$room/input"
    "$room/plain" <"$room/input" >"$room/plain.out"
    "$proved" <"$room/input" >"$room/proved.out"
    cmp "$room/proved.out" "$room/plain.out"
    dd if="$room/input" bs=$((7 + seed * 37 % 5000)) 2>/dev/null | "$proved" >"$room/proved.out"
    cmp "$room/proved.out" "$room/plain.out"
    seed=$((seed + 1))
done
echo "$count broken inputs and the empty one: the outputs are equal"
