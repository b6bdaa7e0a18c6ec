#!/bin/sh
# How fast `read_line` reads lines as node exporter writes them, with 10 labels each, beside how fast the
# machine copies the same bytes. Takes no words. Prints a table of MB and lines a second, each the best of
# three runs, and of ratios.
#
# Needs sh, awk and GNU date, and `rt` where the program of the benchmarks isn't built yet.
set -eu
export LC_ALL=C

root=$(CDPATH= cd -- "$(dirname -- "$0")/.." && pwd)
program=$root/crates/vm_bench/out/vm_bench
folder=$(mktemp -d)
trap 'rm -rf -- "$folder"' EXIT
lines=$folder/lines
rounds=10
copies=100

# 100,000 samples of a few metrics, each of a series of its own, with values of 1 to 6 digits.
generate() {
    awk 'function chance(n) { seed = seed * 16807 % 2147483647; return seed % n }
    BEGIN {
        seed = 1
        count = split("node_cpu_seconds_total node_disk_io_time_seconds_total " \
            "node_network_receive_bytes_total node_filesystem_avail_bytes", names, " ")
        for (row = 0; row < 100000; row++) {
            value = chance(10 ^ (1 + chance(6))) ""
            if (chance(2) == 0) value = value "." chance(100)
            printf "%s{cluster=\"eu-west-1\",container=\"node-exporter\",cpu=\"%d\",device=\"eth%d\",endpoint=\"metrics\"," \
                "instance=\"10.0.%d.%d:9100\",job=\"node-exporter\",mode=\"idle\",namespace=\"monitoring\"," \
                "pod=\"node-exporter-%d\"} %s\n", names[1 + chance(count)], chance(64), chance(8),
                chance(256), chance(256), row, value
        }
    }'
}

# The seconds of the quickest of three runs with these words.
best_of() {
    for _ in 1 2 3; do
        before=$(date +%s%N)
        "$program" "$@" <"$lines" >"$folder/said"
        after=$(date +%s%N)
        echo "$before $after"
    done | awk '{ seconds = ($2 - $1) / 1e9; if (NR == 1 || seconds < best) best = seconds } END { printf "%.6f", best }'
}

[ -x "$program" ] || (cd -- "$root/crates/vm_bench" && rt run -- promtext 0 </dev/null >&2)
generate >"$lines"
bytes=$(wc -c <"$lines")
read_all=$(best_of promtext "$rounds")
read_none=$(best_of promtext 0)
copy_all=$(best_of copy "$copies")
copy_none=$(best_of copy 0)

awk -v bytes="$bytes" -v rounds="$rounds" -v copies="$copies" -v a="$read_all" -v b="$read_none" \
    -v c="$copy_all" -v d="$copy_none" 'BEGIN {
    reads = bytes * rounds / 1e6 / (a - b)
    moves = bytes * copies / 1e6 / (c - d)
    printf "|  | MB/s | lines/s | to a copy |\n|---|---|---|---|\n"
    printf "| `read_line` | %.0f | %.0f | %.3f |\n", reads, 100000 * rounds / (a - b), reads / moves
    printf "| copy | %.0f |  | 1.000 |\n", moves
}'
