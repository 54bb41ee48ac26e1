#!/usr/bin/env bash
# Measures the packed tables against the same in plain Rust, in one run, and prints a table of both.
#   bench/bits.sh [TURNS [ROUNDS]]
# TURNS random writes and reads for each table (20 million), each program ROUNDS times (9), interleaved; the least time counts.
set -eu
cd "$(dirname "$0")/.."
turns=${1:-20000000}
rounds=${2:-9}
out=bench/out
mkdir -p "$out"

(cd crates/bench_bits && rt run >"../../$out/bits.proved")
rustc --edition 2024 -O -o "$out/bits" bench/bits.rs
proved=crates/bench_bits/out/bench_bits

"$out/bits" | diff - "$out/bits.proved" || { echo "the check sums differ" >&2; exit 1; }

: >"$out/bits.times"
for table in near\ {bits,crumbs,trits,fields,fields1,fields3,plain} far\ {bits,crumbs,trits,fields,plain}; do
    for round in $(seq "$rounds"); do
        "$proved" "$turns" "$table" | tee "$out/bits.sums.proved" | sed -n 's/^time/proved/p' >>"$out/bits.times"
        "$out/bits" "$turns" "$table" | tee "$out/bits.sums.plain" | sed -n 's/^time/plain/p' >>"$out/bits.times"
        diff <(grep -v ^time "$out/bits.sums.proved") <(grep -v ^time "$out/bits.sums.plain")
    done
done

echo "| table | work | proved | plain Rust | ratio |"
echo "|---|---|---|---|---|"
awk '
    { key = $2 " " $3 " | " $4; if (!(key in seen)) { seen[key] = 1; order[++count] = key; work[key] = $4 } }
    { each = 1000 * $5 / $6; if (!(($1, key) in best) || each < best[$1, key]) best[$1, key] = each }
    function shown(each, name) {
        return name == "set" || name == "get" ? sprintf("%.1f ns", each) : sprintf("%.0f MB/s", 1000 / each)
    }
    END {
        for (i = 1; i <= count; i++) {
            key = order[i]
            proved = best["proved", key]; plain = best["plain", key]
            printf "| %s | %s | %s | %.2f |\n", key, shown(proved, work[key]), shown(plain, work[key]), proved / plain
        }
    }' "$out/bits.times"

echo
echo "| table | image, bytes | memory past the image, KiB |"
echo "|---|---|---|"
resident() { /usr/bin/time -f %M "$proved" "$1" 2>&1 >"$out/bits.len"; }
none=$(resident none)
for name in bits crumbs trits fields plain; do
    all=$(resident "$name")
    len=$(cat "$out/bits.len")
    echo "| $name | $len | $((all - none - len / 1024)) |"
done
