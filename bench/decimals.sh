#!/bin/sh
# How many nanoseconds a call of `vm_decimal` takes, on values as samples have them (up to 6 digits) and on wide
# ones, beside the same loop in Rust over `f64` and over `i128` where rustc is at hand. Takes no words. Prints a
# table of processor time, each figure of the best of three runs, less the time of a run without calls.
#
# Needs sh and awk, and `rt` where the program of the benchmarks isn't built yet.
set -eu
export LC_ALL=C

root=$(CDPATH= cd -- "$(dirname -- "$0")/.." && pwd)
program=$root/crates/vm_bench/out/vm_bench
folder=$(mktemp -d)
trap 'rm -rf -- "$folder"' EXIT
count=10000
rounds=1000

# Pairs of numbers, a pair a line: like samples, or with 20 to 30 digits.
generate() {
    awk -v kind="$1" -v count="$count" 'function chance(n) { seed = seed * 16807 % 2147483647; return seed % n }
    function small(value) {
        value = chance(10 ^ (1 + chance(4))) ""
        return chance(2) == 0 ? value "." (1 + chance(9)) : value
    }
    function wide(value, place) {
        value = 1 + chance(9) ""
        for (place = 0; place < 4; place++) value = value sprintf("%05d", chance(100000))
        return value "." (1 + chance(9))
    }
    BEGIN {
        seed = 1
        for (row = 0; row < count; row++)
            print (kind == "small" ? small() " " small() : wide() " " wide())
    }'
}

# The seconds of processor time that a program takes with these words.
seconds() {
    ("$@" <"$input" >"$folder/said" && times) |
        awk 'NR == 2 { split($1, user, /[ms]/); split($2, kernel, /[ms]/)
            print (user[1] + kernel[1]) * 60 + user[2] + kernel[2] }'
}

# The nanoseconds a call of the quickest of three runs of a program with these words.
per_call() {
    input=$1
    calls=$2
    shift 2
    for _ in 1 2 3; do
        echo "$(seconds "$@" "$rounds") $(seconds "$@" 0)"
    done | awk -v calls="$calls" -v rounds="$rounds" '{
        if (NR == 1 || $1 < best) best = $1
        if (NR == 1 || $2 < least) least = $2
    } END { printf "%.1f", (best - least) * 1e9 / calls / rounds }'
}

# The same loops in Rust: `TYPE OPERATION ROUNDS`.
rust_program() {
    cat >"$folder/plain.rs" <<'RUST'
use std::io::{Read, Write};
fn each<T: Copy, U>(pairs: &[(T, T)], rounds: u32, operation: impl Fn(T, T) -> U) {
    let mut places: Vec<Option<U>> = pairs.iter().map(|_| None).collect();
    for _ in 0..rounds {
        for (place, (one, two)) in places.iter_mut().zip(pairs) {
            *place = Some(operation(*one, *two));
        }
        std::hint::black_box(&mut places);
    }
}
fn main() {
    let words: Vec<String> = std::env::args().skip(1).collect();
    let mut text = String::new();
    std::io::stdin().read_to_string(&mut text).unwrap();
    let rounds: u32 = words[2].parse().unwrap();
    let texts: Vec<&str> = text.split_whitespace().collect();
    let floats: Vec<f64> = texts.iter().map(|text| text.parse().unwrap()).collect();
    let pairs: Vec<(f64, f64)> = floats.chunks(2).map(|pair| (pair[0], pair[1])).collect();
    let whole: Vec<(i128, i128)> =
        pairs.iter().map(|(one, two)| (*one as i128 + 1, *two as i128 + 1)).collect();
    match (words[0].as_str(), words[1].as_str()) {
        ("f64", "add") => each(&pairs, rounds, |one, two| one + two),
        ("f64", "mul") => each(&pairs, rounds, |one, two| one * two),
        ("f64", "quot9") => each(&pairs, rounds, |one, two| one / two),
        ("f64", "compare") => each(&pairs, rounds, |one, two| one < two),
        ("i128", "add") => each(&whole, rounds, |one, two| one.checked_add(two)),
        ("i128", "mul") => each(&whole, rounds, |one, two| one.checked_mul(two)),
        ("i128", "quot9") => each(&whole, rounds, |one, two| one.checked_div(two)),
        ("i128", "compare") => each(&whole, rounds, |one, two| one < two),
        ("f64", "read") => {
            for _ in 0..rounds {
                for text in &texts {
                    std::hint::black_box(text.parse::<f64>().is_ok());
                }
            }
        }
        ("f64", "print") => {
            let mut out = Vec::new();
            for _ in 0..rounds {
                for (one, _) in &pairs {
                    out.clear();
                    write!(out, "{one}").unwrap();
                    std::hint::black_box(&mut out);
                }
            }
        }
        _ => {}
    }
}
RUST
    rustc -O -o "$folder/plain" "$folder/plain.rs" >&2
}

[ -x "$program" ] || (cd -- "$root/crates/vm_bench" && rt run -- copy 0 </dev/null >&2)
generate small >"$folder/small"
generate wide >"$folder/wide"
plain=no
if command -v rustc >/dev/null; then rust_program && plain=yes; else echo "no rustc: f64 and i128 are skipped" >&2; fi

printf '| Values | Call | `Dec`, ns | `f64`, ns | `i128`, ns |\n|---|---|---|---|---|\n'
for kind in small wide; do
    for operation in add mul quot9 compare read print; do
        calls=$count
        [ "$operation" = read ] && calls=$((2 * count))
        dec=$(per_call "$folder/$kind" "$calls" "$program" decimals "$operation")
        float=
        whole=
        if [ "$plain" = yes ]; then
            float=$(per_call "$folder/$kind" "$calls" "$folder/plain" f64 "$operation")
            case $operation in
            read | print) ;;
            *) whole=$(per_call "$folder/$kind" "$calls" "$folder/plain" i128 "$operation") ;;
            esac
        fi
        printf '| %s | %s | %s | %s | %s |\n' "$kind" "$operation" "$dec" "$float" "$whole"
    done
done
