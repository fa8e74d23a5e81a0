#!/bin/sh
# Measures `wbsim audit` on the journals of runs over threads, beside `wbsim check` on the largest trace.
#
# usage: bench/audit.sh [BINARY]
#
# BINARY is the proved binary unless given. The traces are those of `bulk 100000` and `bulk 1000000`: `run` writes a journal of each, which
# `audit` then judges. A line for each: the pages, the bytes of the input, the seconds and the peak of resident memory in KiB (`-` where GNU
# time isn't there) of the least of three audits, the nanoseconds a byte, and how many times those of `check` on the largest trace this is,
# which reads and writes as many bytes as it is given. The last line is how the time a byte grows from the smaller journal to the
# larger; where it is about 1, the time is linear. Nothing here is proved, and no claim is made of speed.
root=$(cd "$(dirname "$0")/.." && pwd) || exit 70
binary=${1:-$root/crates/wbsim_top/out/wbsim_top}
[ -x "$binary" ] || { echo "bench/audit.sh: no binary at $binary: rt ci builds it" >&2; exit 70; }

work=$(mktemp -d) || exit 70
trap 'rm -rf "$work"' EXIT

# PAGES: the trace that `bulk` runs.
bulk_trace() {
    awk -v pages="$1" 'BEGIN {
        print "cpus 4"
        print "avail 0 2000000"
        for (i = 0; i < 2; i++) print "device", i, 1048576, 0, 100
        for (i = 0; i < 2; i++) print "context", i, i, 0
        for (i = 0; i < 4; i++) { size[i] = int(pages / 4) + (i < pages % 4); print "inode", i, i % 2, size[i] }
        for (i = 0; i < 4; i++) print "task", i, int(i / 2)
        for (i = 0; i < 2; i++) print "flusher", i, i, i + 2
        for (i = 0; i < 4; i++) print "write", i, i, 0, size[i]
    }'
}

# 65536 actions and 65536 order lines over 4096 inodes, 256 tasks and 64 CPUs: the limits of a trace.
largest() {
    awk 'BEGIN {
        print "cpus 64"
        print "avail 0 1000000"
        for (i = 0; i < 16; i++) print "device", i, 1048576, 0, 100
        for (i = 0; i < 64; i++) print "context", i, i % 16, 0
        for (i = 0; i < 4096; i++) print "inode", i, i % 4, 512
        for (i = 0; i < 256; i++) print "task", i, i % 64
        for (i = 0; i < 64; i++) print "flusher", i, i % 16, i
        for (i = 0; i < 65536; i++) print "write", i % 256, (i * 7 + int(i / 256)) % 4096, i % 256, 200 + i % 50
        for (i = 0; i < 65536; i++) print "order", i % 64, 1000000 + i
    }'
}

# COMMAND INPUT: one run. Its microseconds and KiB, or that it went wrong.
once() {
    begin=$(date +%s%N)
    if [ -x /usr/bin/time ]; then
        /usr/bin/time -q -f '%M' -o "$work/memory" "$binary" "$1" < "$2" > "$work/out" 2> "$work/err"
        status=$?
    else
        "$binary" "$1" < "$2" > "$work/out" 2> "$work/err"
        status=$?
        echo - > "$work/memory"
    fi
    end=$(date +%s%N)
    [ $status -eq 0 ] || { echo "bench/audit.sh: $1: status $status: $(cat "$work/out" "$work/err" | head -n 2)" >&2; exit 70; }
    echo $(((end - begin) / 1000)) "$(cat "$work/memory")"
}

# COMMAND INPUT: the run of three that took the least time.
least() {
    for run in 1 2 3; do
        once "$@" || exit 70
    done | sort -n | head -n 1
}

largest > "$work/largest"
bytes=$(wc -c < "$work/largest")
checked=$(least check "$work/largest") && [ -n "$checked" ] || exit 70
of_check=$(echo "$checked $bytes" | awk '{ printf "%.3f", $1 * 1000 / $3 }')
echo "check: the largest trace: $bytes bytes, $of_check ns a byte"

for pages in 100000 1000000; do
    bulk_trace $pages > "$work/trace"
    "$binary" run < "$work/trace" > "$work/journal" 2> "$work/err" || { echo "bench/audit.sh: run: $(cat "$work/err")" >&2; exit 70; }
    { cat "$work/trace"; echo journal; cat "$work/journal"; } > "$work/in"
    rm -f "$work/journal"
    bytes=$(wc -c < "$work/in")
    audited=$(least audit "$work/in") && [ -n "$audited" ] || exit 70
    echo "$pages $bytes $audited $of_check" | awk '{
        printf "audit: %8d pages, %9d bytes  %6.2f s  %8s KiB  %7.1f ns a byte, %.2f times check\n", $1, $2, $3 / 1e6, $4, $3 * 1000 / $2, $3 * 1000 / $2 / $5
    }'
    echo "$audited $bytes" | awk '{ print $1 / $3 }' >> "$work/rates"
done
awk 'NR == 1 { first = $1 } NR == 2 { printf "audit: %.2f times as long a byte for ten times the pages\n", $1 / first }' "$work/rates"
