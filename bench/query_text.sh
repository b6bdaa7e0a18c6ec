#!/bin/sh
# How many queries of dashboards a second are cut into tokens, read, printed and checked, beside how fast the machine copies
# the same bytes, and whether the time grows with a text's length alone: texts of 8,192 and 16,384 bytes. Takes no
# words. Prints two tables of processor time, each figure of the best of three runs, less the time of a run without
# rounds.
#
# Needs sh and awk, and `rt` where the program of the benchmarks isn't built yet.
set -eu
export LC_ALL=C

root=$(CDPATH= cd -- "$(dirname -- "$0")/.." && pwd)
program=$root/crates/vm_bench/out/vm_bench
folder=$(mktemp -d)
trap 'rm -rf -- "$folder"' EXIT

# Twenty queries as dashboards of nodes and clusters have them.
dashboard() {
    cat <<'QUERIES'
up{job="node-exporter"}
sum(rate(node_cpu_seconds_total{mode!="idle",instance=~"$node"}[5m])) by (instance)
100 - avg by (instance) (rate(node_cpu_seconds_total{mode="idle"}[5m])) * 100
node_memory_MemTotal_bytes - node_memory_MemFree_bytes - node_memory_Buffers_bytes - node_memory_Cached_bytes
(1 - node_memory_MemAvailable_bytes / node_memory_MemTotal_bytes) * 100
rate(node_network_receive_bytes_total{device!~"lo|veth.*"}[1m]) * 8
topk(5, sum by (namespace, pod) (rate(container_cpu_usage_seconds_total{container!=""}[5m])))
sum(container_memory_working_set_bytes{container!="",image!=""}) by (namespace) / 1024 / 1024
count(kube_pod_status_phase{phase="Running"} == 1) by (namespace)
max_over_time(node_load1[1h]) / on(instance) group_left count by (instance) (node_cpu_seconds_total{mode="idle"})
increase(http_requests_total{code=~"5.."}[1h]) / ignoring(code) group_left sum without (code) (increase(http_requests_total[1h]))
sum(rate(http_requests_total[5m])) by (handler, method) > 0.5 or vector(0)
avg_over_time(up[1d]) < 0.99 unless on(instance) maintenance == 1
label_replace(node_uname_info, "host", "$1", "nodename", "(.*)\\..*")
clamp_max(node_filesystem_avail_bytes{fstype!="tmpfs"} / node_filesystem_size_bytes{fstype!="tmpfs"}, 1)
sort_desc(sum by (job) (scrape_samples_scraped)) default 0
deriv_fast(process_resident_memory_bytes[30m]) > bool 1e6
last_over_time(node_time_seconds[5m] offset 1d) - node_time_seconds offset -1h
WITH (cpu = rate(node_cpu_seconds_total[5m]), total(q) = sum(q) by (instance)) total(cpu)
round(min by (cluster) (quorum{role="leader" or role="follower"}) if ready == 1, 0.01)
QUERIES
}

# A sum of so many bytes, an even number.
long_sum() {
    awk -v bytes="$1" 'BEGIN { for (at = 2; at < bytes; at += 2) printf "1+"; print "11" }'
}

# The seconds of processor time that the program takes with these words.
seconds() {
    ("$program" "$@" <"$input" >"$folder/said" && times) |
        awk 'NR == 2 { split($1, user, /[ms]/); split($2, kernel, /[ms]/)
            print (user[1] + kernel[1]) * 60 + user[2] + kernel[2] }'
}

# The seconds of the quickest of three runs, less those without rounds.
best_of() {
    for _ in 1 2 3; do
        echo "$(seconds "$1" "$2") $(seconds "$1" 0)"
    done | awk '{
        if (NR == 1 || $1 < best) best = $1
        if (NR == 1 || $2 < least) least = $2
    } END { printf "%.6f", best - least }'
}

[ -x "$program" ] || (cd -- "$root/crates/vm_bench" && rt run -- queries 0 </dev/null >&2)
input=$folder/dashboard
dashboard >"$input"
bytes=$(wc -c <"$input")
rounds=5000
copies=1000000
case $("$program" queries 1 <"$input") in
"queries 20 "*) ;;
*) echo "not every line is a query" >&2 && exit 1 ;;
esac
reads=$(best_of queries "$rounds")
moves=$(best_of copy "$copies")

awk -v bytes="$bytes" -v rounds="$rounds" -v copies="$copies" -v a="$reads" -v b="$moves" 'BEGIN {
    mb = bytes * rounds / 1e6 / a
    copied = bytes * copies / 1e6 / b
    printf "|  | queries/s | MB/s | to a copy |\n|---|---|---|---|\n"
    printf "| read, printed and checked | %.0f | %.1f | %.5f |\n| copy |  | %.0f | 1.000 |\n\n", 20 * rounds / a, mb, mb / copied, copied
}'

printf '|  | 8,192 bytes, ms | 16,384 bytes, ms | ratio |\n|---|---|---|---|\n'
for length in 8192 16384; do
    input=$folder/$length
    long_sum "$length" >"$input"
    best_of queries 200
    echo
done | awk 'NR == 1 { short = $1 } NR == 2 { printf "| read, printed and checked | %.2f | %.2f | %.2f |\n", short * 5, $1 * 5, $1 / short }'
