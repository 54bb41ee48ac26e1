#!/usr/bin/env bash
# Measures peeling as a build does it, over Xored and without levels, against the same in plain Rust, in one run, and prints a
# table of times and one of memory.
#   bench/peel.sh [ROUNDS [EDGES ..]]
# Each program runs ROUNDS times (3) on each graph, interleaved; the least time counts. The graphs have EDGES edges (1, 4 and 16
# million), with three ends over 1.23 vertices for each edge, and with two ends over 2.09.
set -eu
cd "$(dirname "$0")/.."
rounds=${1:-3}
shift || true
[ $# -gt 0 ] || set -- 1000000 4000000 16000000
timer=/usr/bin/time
[ -x "$timer" ] || { echo "install Debian's time" >&2; exit 1; }
out=bench/out
mkdir -p "$out"

(cd crates/bench_peel && rt run >"../../$out/peel.proved")
rustc --edition 2024 -O -o "$out/peel" bench/peel.rs
proved=crates/bench_peel/out/bench_peel

"$out/peel" | diff - "$out/peel.proved" || { echo "the check sums differ" >&2; exit 1; }

: >"$out/peel.times"
# Runs a program on a graph: adds its times, its processor time in seconds and its memory in KiB, and leaves its check sums.
measure() {
    local user system memory
    "$timer" -o "$out/peel.used" -f '%U %S %M' "$2" "$3" "$4" >"$out/peel.said"
    read -r user system memory <"$out/peel.used"
    sed -n "s/^time/$3 $4 $1/p" "$out/peel.said" >>"$out/peel.times"
    echo "$3 $4 $1 processor $(awk -v a="$user" -v b="$system" 'BEGIN { print a + b }')" >>"$out/peel.times"
    echo "$3 $4 $1 memory $memory" >>"$out/peel.times"
    grep -v ^time "$out/peel.said" >"$out/peel.sums.$1"
}
for round in $(seq "$rounds"); do
    for ends in 3 2; do
        for edges in 1 "$@"; do
            measure proved "$proved" "$ends" "$edges"
            measure plain "$out/peel" "$ends" "$edges"
            diff "$out/peel.sums.proved" "$out/peel.sums.plain"
        done
    done
done

echo "Nanoseconds for an edge; the ratio is that of all of this work. The last one is that of the programs' processor time, check sums included."
echo
echo "| ends | edges | proved: filling | peeling | plain Rust: filling | peeling | ratio | of processor time |"
echo "|---|---|---|---|---|---|---|---|"
awk '
    { key = $1 " | " $2; if ($2 > 1 && !(key in edges)) { edges[key] = $2; order[++count] = key } }
    { if (!(($3, $4, key) in best) || $5 < best[$3, $4, key]) best[$3, $4, key] = $5 }
    function each(program, work, key) { return 1000 * best[program, work, key] / edges[key] }
    END {
        for (i = 1; i <= count; i++) {
            key = order[i]
            ours = each("proved", "fill", key) + each("proved", "peel", key)
            theirs = each("plain", "fill", key) + each("plain", "peel", key)
            printf "| %s | %.0f | %.0f | %.0f | %.0f | %.2f | %.2f |\n", key, \
                each("proved", "fill", key), each("proved", "peel", key), \
                each("plain", "fill", key), each("plain", "peel", key), \
                ours / theirs, best["proved", "processor", key] / best["plain", "processor", key]
        }
    }' "$out/peel.times"

echo
echo "Bytes for an edge at the peak, past those of a run on one edge; the rule is 4 n + (4 K + 5.125) m."
echo
echo "| ends | edges | proved | the rule | plain Rust |"
echo "|---|---|---|---|---|"
awk '
    $4 == "memory" {
        key = $1 " | " $2
        if ($2 > 1 && !(key in edges)) { edges[key] = $2; ends[key] = $1; order[++count] = key }
        if ($2 == 1) { if (!(($3, $1) in least) || $5 < least[$3, $1]) least[$3, $1] = $5 }
        else if (!(($3, key) in most) || $5 > most[$3, key]) most[$3, key] = $5
    }
    function each(program, key) { return 1024 * (most[program, key] - least[program, ends[key]]) / edges[key] }
    END {
        for (i = 1; i <= count; i++) {
            key = order[i]
            rule = 4 * (ends[key] == 3 ? 1.23 : 2.09) + 4 * ends[key] + 5.125
            printf "| %s | %.2f | %.2f | %.2f |\n", key, each("proved", key), rule, each("plain", key)
        }
    }' "$out/peel.times"
