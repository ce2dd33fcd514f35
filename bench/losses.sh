#!/bin/sh
# Compares the speed of the proved program `losses` with a plain C program of the same output, on 50 MB of mixed records.
# Run it after `rt run` in crates/losses. It prints the best of 10 runs of each, taken by turns, and the ratio.
set -eu
here=$(cd "$(dirname "$0")" && pwd)
proved=$here/../crates/losses/out/losses
bytes=${1:-50000000} seed=${2:-1} runs=10
[ -x "$proved" ] || { echo "no crates/losses/out/losses: run 'rt run </dev/null' in crates/losses first" >&2; exit 2; }
room=$(mktemp -d)
trap 'rm -rf "$room"' EXIT
gcc -O2 "-I$here/../include" "-I$here/../host" -o "$room/make_records" "$here/make_records.c"
gcc -O2 "-I$here/../include" "-I$here/../host" -o "$room/plain" "$here/losses_plain.c"
"$room/make_records" mixed "$bytes" "$seed" >"$room/input"
"$proved" <"$room/input" >"$room/proved.out"
"$room/plain" <"$room/input" >"$room/plain.out"
cmp "$room/proved.out" "$room/plain.out" || { echo "the outputs differ" >&2; exit 1; }

# The nanoseconds of one run.
once() {
    start=$(date +%s%N)
    "$1" <"$room/input" >/dev/null
    echo $(($(date +%s%N) - start))
}

best_proved=999999999999 best_plain=999999999999 i=0
while [ "$i" -lt "$runs" ]; do
    t=$(once "$proved")
    [ "$t" -ge "$best_proved" ] || best_proved=$t
    t=$(once "$room/plain")
    [ "$t" -ge "$best_plain" ] || best_plain=$t
    i=$((i + 1))
done
echo "input: $(wc -c <"$room/input") bytes, $(wc -l <"$room/plain.out") lines; the outputs are equal"
echo "proved: $((best_proved / 1000)) us, plain C: $((best_plain / 1000)) us (best of $runs)"
echo "the proved program has $((best_plain * 100 / best_proved)) % of the plain program's speed"
[ $((best_plain * 2)) -ge "$best_proved" ] || { echo "below half" >&2; exit 1; }
