#!/bin/sh
# How long `last` takes on a million lines, beside `wc -l` and an awk program that looks for the same
# sample. Takes no words. Prints a table of seconds, each the best of three runs, and of ratios.
#
# Needs sh, awk, wc and GNU date, and `rt` where the program isn't built yet.
set -eu
export LC_ALL=C

root=$(CDPATH= cd -- "$(dirname -- "$0")/.." && pwd)
program=$root/crates/vmsingle/out/vmsingle
folder=$(mktemp -d)
trap 'rm -rf -- "$folder"' EXIT
rows=$folder/rows

# 20 rows every 15 s, each of one of 20 names by chance, so that a name has several samples at some
# times and none at others. A value has 1 to 6 digits, and by chance a sign or a point.
generate() {
    awk 'function chance(n) { seed = seed * 16807 % 2147483647; return seed % n }
    BEGIN {
        seed = 1
        count = split("up go_goroutines go_threads go_info node_load1 node_load5 node_load15 " \
            "node_boot_time_seconds node_memory_MemFree_bytes node_memory_Cached_bytes " \
            "node_disk_io_now node_network_up node_procs_running process_cpu_seconds_total " \
            "process_open_fds process_max_fds process_resident_memory_bytes scrape_samples_scraped " \
            "scrape_duration_seconds http_requests_total", names, " ")
        for (row = 0; row < 1000000; row++) {
            value = chance(10 ^ (1 + chance(6))) ""
            if (chance(4) == 0) {
                at = chance(length(value) + 1)
                value = substr(value, 1, at) "." substr(value, at + 1)
            }
            if (chance(4) == 0) value = "-" value
            printf "%s %s %.0f\n", names[1 + chance(count)], value, 1700000000000 + int(row / 20) * 15000
        }
    }'
}

# The last sample of `up` that lies at most 5 minutes before the time, by time and then by value.
search='$1 == "up" && $3 > at - 300000 && $3 <= at && (!found || $3 > time || $3 == time && $2 > value) {
    found = 1; time = $3 + 0; value = $2 + 0
}
END { print value }'

# The time of the query, an hour before the last row.
at=1700746385000

by_program() { "$program" last up "$at" <"$rows"; }
by_wc() { wc -l <"$rows"; }
by_awk() { awk -v at="$at" "$search" <"$rows"; }

# The seconds of the quickest of three runs. What it prints is kept in a file of its name.
best_of() {
    for _ in 1 2 3; do
        before=$(date +%s%N)
        "$1" >"$folder/$1"
        after=$(date +%s%N)
        echo "$before $after"
    done | awk '{ seconds = ($2 - $1) / 1e9; if (NR == 1 || seconds < best) best = seconds } END { printf "%.6f", best }'
}

printf 'up 1 900\n' | "$root/vmsingle" last up 1000 >/dev/null
generate >"$rows"
program_seconds=$(best_of by_program)
wc_seconds=$(best_of by_wc)
awk_seconds=$(best_of by_awk)

found=$(sed -n 's/.*"value":\[[^"]*"\([^"]*\)"\].*/\1/p' "$folder/by_program")
wanted=$(cat "$folder/by_awk")
if ! awk -v found="$found" -v wanted="$wanted" 'BEGIN { exit !(found != "" && found + 0 == wanted + 0) }'; then
    echo "last up $at gives '$found', and awk gives '$wanted'" >&2
    exit 1
fi

wc -lc <"$rows" | awk '{ printf "%d lines, %.1f MB; the last value is the same\n\n", $1, $2 / 1e6 }'
awk -v program="$program_seconds" -v wc="$wc_seconds" -v awk="$awk_seconds" 'BEGIN {
    printf "%-16s %8s %10s %10s\n", "", "seconds", "to wc -l", "to awk"
    printf "%-16s %8.3f %10.2f %10.2f\n", "vmsingle last", program, program / wc, program / awk
    printf "%-16s %8.3f %10.2f %10.2f\n", "wc -l", wc, 1, wc / awk
    printf "%-16s %8.3f %10.2f %10.2f\n", "awk", awk, awk / wc, 1
}'
