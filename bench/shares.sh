#!/bin/sh
# Measures the calls `add` and `read` on shares beside the bare atomic operations that they are made of.
#
# usage: bench/shares.sh [BINARY]
#
# BINARY is the proved binary of `shares_bench` unless given. Each thread makes 2^22 calls on a part of its own in one domain. A line
# for each call and number of threads: the nanoseconds of a call by a thread's clock, those of the bare operations (two loads and two
# additions, or three loads), and the ratio; the best of five runs of each. Nothing here is proved, and no claim is made of speed.
root=$(cd "$(dirname "$0")/.." && pwd) || exit 70
binary=${1:-$root/crates/shares_bench/out/shares_bench}
[ -x "$binary" ] || { echo "bench/shares.sh: no binary at $binary: rt ci builds it" >&2; exit 70; }

# WORD: the least nanoseconds of five runs.
least() {
    for run in 1 2 3 4 5; do
        begin=$(date +%s%N)
        "$binary" "$1"
        end=$(date +%s%N)
        echo $((end - begin))
    done | sort -n | head -1
}

"$binary" nothing || { echo "bench/shares.sh: $binary fails" >&2; exit 70; }
nothing=$(least nothing)
for call in add read; do
    for threads in 1 4; do
        ruled=$(least "$call-$threads")
        bare=$(least "bare-$call-$threads")
        awk -v call="$call" -v threads="$threads" -v ruled="$ruled" -v bare="$bare" -v nothing="$nothing" 'BEGIN {
            calls = 4194304
            ruled = (ruled - nothing) / calls
            bare = (bare - nothing) / calls
            printf "%-5s %d threads  %7.1f ns a call  bare %7.1f ns  ratio %.2f\n", call, threads, ruled, bare, ruled / bare
        }'
    done
done
