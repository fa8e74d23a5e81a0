#!/bin/sh
# Measures `wbsim check` on the largest trace, and on inputs at the limit of bytes and past it.
#
# usage: bench/check.sh [BINARY]
#
# BINARY is the proved binary unless given. A line for each run: the input, its bytes, the bytes written, the status, the
# seconds, and the peak of resident memory in KiB (`-` where GNU time isn't there). Nothing here is proved, and no claim
# is made of speed.
root=$(cd "$(dirname "$0")/.." && pwd) || exit 70
binary=${1:-$root/crates/wbsim_top/out/wbsim_top}
[ -x "$binary" ] || { echo "bench/check.sh: no binary at $binary: rt ci builds it" >&2; exit 70; }

work=$(mktemp -d) || exit 70
trap 'rm -rf "$work"' EXIT

# 65536 actions and 65536 order lines over 4096 inodes, 256 tasks, 64 CPUs and 1024 writers: the limits of a trace.
largest() {
    awk 'BEGIN {
        print "cpus 64"
        print "cap 1024"
        for (i = 0; i < 256; i++) print "avail", i * 1000, 1000000 + i
        for (i = 0; i < 16; i++) print "device", i, 1048576, 0, 100
        for (i = 1; i <= 8; i++) print "cgroup", i, 200000, 200000
        for (i = 0; i < 64; i++) print "context", i, i % 16, i % 9
        for (i = 0; i < 4096; i++) print "inode", i, i % 4, 512
        for (i = 0; i < 256; i++) print "task", i, i % 64
        for (i = 0; i < 64; i++) print "flusher", i, i % 16, i
        for (i = 0; i < 65536; i++) print "write", i % 256, (i * 7 + int(i / 256)) % 4096, i % 256, 200 + i % 50
        for (i = 0; i < 65536; i++) print "order", i % 64, 1000000 + i
        print "halt", 1000000
    }'
}

# NAME INPUT: one run, measured.
measure() {
    if [ -x /usr/bin/time ]; then
        /usr/bin/time -q -f '%e %M' -o "$work/time" "$binary" check < "$2" > "$work/out" 2> "$work/err"
        status=$?
    else
        begin=$(date +%s.%N)
        "$binary" check < "$2" > "$work/out" 2> "$work/err"
        status=$?
        end=$(date +%s.%N)
        echo "$begin $end" | awk '{ printf "%.2f -\n", $2 - $1 }' > "$work/time"
    fi
    read -r seconds memory < "$work/time"
    printf '%-22s in %9d  out %9d  status %d  %6s s  %8s KiB  %s\n' "$1" "$(wc -c < "$2")" "$(wc -c < "$work/out")" \
        "$status" "$seconds" "$memory" "$(cat "$work/err")"
}

largest > "$work/largest"
for run in 1 2 3 4 5; do
    measure "largest trace, run $run" "$work/largest"
done

# Inputs of no line: 2^26 bytes are read whole and refused as a bad line, one more byte is too long.
head -c 67108864 /dev/zero > "$work/full"
measure "2^26 bytes" "$work/full"
head -c 67108865 /dev/zero > "$work/over"
measure "2^26 + 1 bytes" "$work/over"
