#!/bin/sh
# How fast blocks are written and read, for four kinds of series of 131,072 samples, beside how fast the machine
# copies their samples in memory. Takes no words. Prints a table of million samples a second, each the best of
# three runs, of ratios to the copy, and of bytes that a sample takes in a block.
#
# Needs sh, awk and GNU date, and `rt` where the program of the benchmarks isn't built yet.
set -eu
export LC_ALL=C

root=$(CDPATH= cd -- "$(dirname -- "$0")/.." && pwd)
program=$root/crates/vm_bench/out/vm_bench
folder=$(mktemp -d)
trap 'rm -rf -- "$folder"' EXIT
rounds=40
copies=400

# The seconds of the quickest of three runs with these words.
best_of() {
    for _ in 1 2 3; do
        before=$(date +%s%N)
        "$program" "$@" </dev/null >"$folder/said"
        after=$(date +%s%N)
        echo "$before $after"
    done | awk '{ seconds = ($2 - $1) / 1e9; if (NR == 1 || seconds < best) best = seconds } END { printf "%.6f", best }'
}

[ -x "$program" ] || (cd -- "$root/crates/vm_bench" && rt run -- promtext 0 </dev/null >&2)
printf '| Series | encode | decode | copy | encode to copy | decode to copy | bytes a sample |\n|---|---|---|---|---|---|---|\n'
for kind in constant counter gauge random; do
    none=$(best_of encode "$kind" 0)
    written=$(best_of encode "$kind" "$rounds")
    set -- $(cat "$folder/said")
    samples=$2 bytes=$4
    read=$(best_of decode "$kind" "$rounds")
    moved=$(best_of move "$kind" "$copies")
    awk -v kind="$kind" -v samples="$samples" -v bytes="$bytes" -v rounds="$rounds" -v copies="$copies" \
        -v none="$none" -v written="$written" -v read="$read" -v moved="$moved" 'BEGIN {
        encode = samples / 1e6 / (written - none)
        decode = samples / 1e6 / (read - none)
        copy = samples * copies / rounds / 1e6 / (moved - none)
        printf "| %s | %.0f | %.0f | %.0f | %.4f | %.4f | %.3f |\n", kind, encode, decode, copy, encode / copy, decode / copy, bytes / samples
    }'
done
