#!/bin/sh
# Measures calls of a throttle beside the bare atomic operations that they are made of.
#
# usage: bench/table.sh [BINARY]
#
# BINARY is the proved binary of `table_bench` unless given. The table is the largest one, of 2097152 pages: 65536 page words, which are
# 512 KiB. Each thread dirties 8192 fresh pages of its own quarter and settles each, then claims, completes and settles each, then loads
# limits as often, which is three loads, and then makes the five loads of a check as often. A line for each kind of call and number of
# threads: the nanoseconds of a call by a thread's clock, those of the bare operations on words laid out alike, each part on lines of its
# own, and the ratio; the least of thirty rounds. The last line for each number of threads has the five loads beside a bare dirty and
# settle. Nothing here is proved, and no claim is made of speed.
root=$(cd "$(dirname "$0")/.." && pwd) || exit 70
binary=${1:-$root/crates/table_bench/out/table_bench}
[ -x "$binary" ] || { echo "bench/table.sh: no binary at $binary: rt ci builds it" >&2; exit 70; }

work=$(mktemp) || exit 70
trap 'rm -f "$work"' EXIT
"$binary" time > "$work" || { echo "bench/table.sh: $binary fails" >&2; exit 70; }
awk 'function show(calls, threads, ruled, bare) {
         printf "%-34s %7d %9.1f %8.1f %6.2f\n", calls, threads, ruled, bare, ruled / bare
     }
     BEGIN { named["limits"] = "a load of limits"; named["loads"] = "five loads of a check" }
     BEGIN { printf "%-34s %7s %9s %8s %6s\n", "calls", "threads", "ns a call", "bare ns", "ratio" }
     $1 == "found" { next }
     $1 == "dirty+settle" { dirty = $5 / $3 }
     { show($1 in named ? named[$1] : $1, $2, $4 / $3, $5 / $3) }
     $1 == "loads" { show("five loads, bare dirty+settle", $2, $4 / $3, dirty) }' "$work"
