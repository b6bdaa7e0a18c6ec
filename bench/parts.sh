#!/bin/sh
# How fast parts are made, opened and looked into: of 100,000 series with 10 labels and 5 samples each, which come in
# five batches, and of 50,000. Takes no words. Prints a table: the seconds of each step in the quickest of three runs,
# their ratio, and their ratio to a copy of the file in memory in the same run; and bytes a series and rows a second.
#
# Needs sh, awk, and `rt` where the program of the benchmarks isn't built yet.
set -eu
export LC_ALL=C

root=$(CDPATH= cd -- "$(dirname -- "$0")/.." && pwd)
program=$root/crates/vm_bench/out/vm_bench
lines=$(mktemp)
trap 'rm -f -- "$lines"' EXIT

# A sample of each of so many series, of which some labels are the same in all, and others in many.
generate() {
    awk -v series="$1" 'BEGIN {
        for (number = 0; number < series; number++)
            printf "node_network_receive_bytes_total{datacenter=\"eu-west-1\",device=\"device-%d\"," \
                "environment=\"production\",instance=\"instance-%d\",job=\"node\",os=\"linux\",rack=\"rack-%d\"," \
                "shard=\"shard-%d\",team=\"storage\"} %.1f\n", number % 8, number / 8, number / 512, number % 1000, number / 10
    }'
}

[ -x "$program" ] || (cd -- "$root/crates/vm_bench" && rt run -- promtext 0 </dev/null >&2)
for series in 50000 100000; do
    generate "$series" >"$lines"
    for _ in 1 2 3; do
        echo "series $series $("$program" parts 1 <"$lines")"
    done
done | awk '
    {
        n = ($2 == 50000 ? 1 : 2)
        series[n] = $2
        for (i = 3; i < NF; i += 2) {
            if ($i == "bytes") bytes[n] = $(i + 1)
            seconds = $(i + 1) / 1e6 / ($i == "copy" ? 100 : 1)
            if (!(($i, n) in took) || seconds < took[$i, n]) took[$i, n] = seconds
        }
    }
    END {
        printf "| | %d series, s | %d series, s | ratio | to a copy |\n|---|---|---|---|---|\n", series[1], series[2]
        split("batches merge open find copy", steps)
        split("parts of five batches,one part of these,opening its file,a million lookups,copying the file", names, ",")
        for (i = 1; i <= 5; i++) {
            a = took[steps[i], 1]
            b = took[steps[i], 2]
            printf "| %s | %.4f | %.4f | %.2f | %.1f |\n", names[i], a, b, b / a, b / took["copy", 2]
        }
        rows = 5 * series[2]
        printf "\nA series takes %.0f bytes of the file; %d rows/s become parts, and %d rows/s are merged.\n", bytes[2] / series[2], rows / took["batches", 2], rows / took["merge", 2]
    }'
