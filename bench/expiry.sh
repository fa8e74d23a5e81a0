#!/bin/sh
# Measures puts and takes of a waiting list with 64 inodes and with 4096, beside a tree of pairs.
#
# usage: bench/expiry.sh [BINARY]
#
# BINARY is the proved binary of `expiry_bench` unless given. The tree, tree.rs, is a BTreeSet of Rust's standard library, compiled with
# $RUSTC, or rustc, at -O. All inodes wait, each due within 30000 ticks. In each of 2^18 turns the clock moves on so that about two are due;
# each that is due is taken (`next`) and put anew. At last all are taken at once, due or not (`first`). A line for either part and number
# of inodes: the nanoseconds for each pair that was taken, those of the tree, and the ratio; the least of ten rounds. The last lines have
# the cost with 4096 inodes beside that with 64. Both programs take the same pairs in the same order, or the status is 1. Nothing here is
# proved, and no claim is made of speed.
root=$(cd "$(dirname "$0")/.." && pwd) || exit 70
binary=${1:-$root/crates/expiry_bench/out/expiry_bench}
[ -x "$binary" ] || { echo "bench/expiry.sh: no binary at $binary: rt ci builds it" >&2; exit 70; }

work=$(mktemp -d) || exit 70
trap 'rm -rf "$work"' EXIT
${RUSTC:-rustc} -O -o "$work/tree" "$root/bench/tree.rs" || { echo "bench/expiry.sh: tree.rs isn't compiled" >&2; exit 70; }
"$binary" time > "$work/wheel" || { echo "bench/expiry.sh: $binary fails" >&2; exit 70; }
"$work/tree" > "$work/pairs" || { echo "bench/expiry.sh: the tree fails" >&2; exit 70; }

paste -d ' ' "$work/wheel" "$work/pairs" | awk '
    function show(part, inodes, wheel, tree) {
        printf "%-22s %5d inodes  %8.1f ns a pair  tree %8.1f ns  ratio %.2f\n", part, inodes, wheel, tree, wheel / tree
    }
    $1 != $7 || $2 != $8 || $4 != $10 || $6 != $12 {
        print "differs: with " $1 " inodes the programs take other pairs"
        differs = 1
    }
    {
        show("a take when due, a put", $1, $3 / $2, $9 / $8)
        show("a take of the first", $1, $5 / $4, $11 / $10)
        turn[NR] = $3 / $2
        tree_turn[NR] = $9 / $8
        first[NR] = $5 / $4
        tree_first[NR] = $11 / $10
    }
    END {
        printf "4096 inodes beside 64: a take when due, a put %.2f, of the tree %.2f; a take of the first %.2f, of the tree %.2f\n",
            turn[2] / turn[1], tree_turn[2] / tree_turn[1], first[2] / first[1], tree_first[2] / tree_first[1]
        exit differs
    }'
