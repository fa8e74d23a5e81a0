#!/bin/sh
# Measures `wbsim replay` beside a plain program on the realistic trace of examples/ and on large ones, up to as much of each thing as a
# trace may have.
#
# usage: bench/replay.sh [BINARY]
#
# BINARY is the proved binary unless given. The plain program, plain-replay.rs, is compiled with $RUSTC, or rustc, at -O. It replays the same
# machine without proofs, and its journals of the examples are compared with those that lie there first. For each input: its bytes, the steps
# made, the bytes written and the status; and for both programs the seconds, the peak of resident memory in KiB (`-` where GNU time isn't
# there), and the microseconds and bytes of memory a step. Each is run $ROUNDS times, or three, one program after the other, and the run with
# the middle time is shown. Of one CPU at work, alone and among 64, the quotient of the seconds follows. Where the two programs print
# something else, that is said, and the status is 1. Nothing here is proved, and no claim is made of speed.
root=$(cd "$(dirname "$0")/.." && pwd) || exit 70
binary=${1:-$root/crates/wbsim_top/out/wbsim_top}
[ -x "$binary" ] || { echo "bench/replay.sh: no binary at $binary: rt ci builds it" >&2; exit 70; }

rounds=${ROUNDS:-3}

work=$(mktemp -d) || exit 70
trap 'rm -rf "$work"' EXIT
${RUSTC:-rustc} -O -o "$work/plain" "$root/bench/plain-replay.rs" || { echo "bench/replay.sh: plain-replay.rs isn't compiled" >&2; exit 70; }

# INODES PAGES ORDERS: 64 CPUs, each with 4 tasks that write 15 pages together, each to inodes of its own where there are enough, and a
# flusher; order lines of one step for each CPU in turn.
machine() {
    awk -v inodes="$1" -v pages="$2" -v orders="$3" 'BEGIN {
        print "cpus 64"
        print "avail 0 1000000"
        for (i = 0; i < 16; i++) print "device", i, 1048576, 0, 100
        for (i = 0; i < 64; i++) print "context", i, i % 16, 0
        for (i = 0; i < inodes; i++) print "inode", i, i % 64, pages
        for (i = 0; i < 256; i++) print "task", i, i % 64
        for (i = 0; i < 64; i++) print "flusher", i, i % 16, i
        for (i = 0; i < 960; i++) {
            turn = int(i / 64)
            print "write", (i % 64) + 64 * (turn % 4), i % inodes, int(i / inodes) % pages, 1
        }
        for (i = 0; i < orders; i++) print "order", i % 64, 1
    }'
}

# CPUS: one CPU with one flusher of one inode, and others that have nothing to do.
alone() {
    awk -v cpus="$1" 'BEGIN {
        print "cpus", cpus
        print "avail 0 1000000"
        print "device 0 1048576 0 100"
        print "context 0 0 0"
        print "inode 0 0 2097152"
        print "task 0 0"
        print "flusher 0 0 0"
        print "write 0 0 0 15"
    }'
}

# TICKS: one CPU on which a task rests for so long, while its flusher tests the limits, an estimate is updated and the timer publishes:
# eight steps in 200 ticks.
resting() {
    printf '%s\n' 'cpus 1' 'avail 0 100000' 'device 0 25600 0 100' 'context 0 0 0' 'inode 0 0 2' 'task 0 0' 'flusher 0 0 0' \
        "rest 0 $1" 'write 0 0 0 1'
}

# 256 tasks on 64 CPUs with 65536 actions, of which 960 are writes and all others rests of up to a second.
restless() {
    awk 'BEGIN {
        print "cpus 64"
        print "avail 0 1000000"
        for (i = 0; i < 16; i++) print "device", i, 1048576, 0, 100
        for (i = 0; i < 64; i++) print "context", i, i % 16, 0
        for (i = 0; i < 64; i++) print "inode", i, i, 64
        for (i = 0; i < 256; i++) print "task", i, i % 64
        for (i = 0; i < 64; i++) print "flusher", i, i % 16, i
        for (i = 0; i < 960; i++) print "write", (i % 64) + 64 * (int(i / 64) % 4), i % 64, int(i / 64), 1
        for (i = 0; i < 64576; i++) print "rest", i % 256, 1 + (i * 7919) % 1000
    }'
}

# A machine that is pressed: four CPUs, a slow disk and two fast ones, memory that comes and goes, and six tasks that rest and write 20000
# pages to twenty inodes, parts of them again and again.
pressed() {
    awk 'BEGIN {
        print "cpus 4"
        print "cap 33"
        print "set dirty_ratio 26"
        print "set dirty_background_ratio 24"
        print "avail 0 96254"
        print "avail 54 12000"
        print "avail 294 40000"
        print "device 0 2048 0 100"
        print "device 1 32768 0 100"
        print "device 2 34882 20 70"
        print "context 0 2 0"
        print "context 1 1 0"
        print "context 2 0 0"
        for (i = 0; i < 20; i++) print "inode", i, i % 3, 1500
        for (i = 0; i < 6; i++) print "task", i, i % 4
        for (i = 0; i < 6; i++) print "flusher", i, i % 3, (i * 3) % 4
        for (i = 0; i < 40; i++) {
            if (i % 3 == 2) print "rest", i % 6, 1 + (i * 7919) % 2500
            print "write", i % 6, (i * 7) % 20, (i * 131) % 1000, 500
        }
        print "order 2 1837"
    }'
}

# PART: so many 64ths of as much as a trace may have of actions and order lines, on a machine with as many CPUs, devices, cgroups,
# contexts, inodes, tasks, flushers, writers and changes of memory as there may be. Each action writes three pages.
limits() {
    awk -v actions=$((1024 * $1)) 'BEGIN {
        print "cpus 64"
        for (i = 0; i < 256; i++) print "avail", i * 10, 300000 + i
        for (i = 0; i < 16; i++) print "device", i, 1048576, 0, 100
        for (i = 1; i <= 8; i++) print "cgroup", i, 200000, 200000
        for (i = 0; i < 64; i++) print "context", i, i % 16, i % 9
        for (i = 0; i < 4096; i++) print "inode", i, i % 64, 48
        for (i = 0; i < 256; i++) print "task", i, i % 64
        for (i = 0; i < 64; i++) print "flusher", i, i % 16, i
        for (i = 0; i < actions; i++) {
            task = i % 256
            turn = int(i / 256)
            context = task % 16 * 4 + turn % 4
            print "write", task, context + 64 * (int(task / 16) * 4 + int(turn / 4) % 4), int(turn / 16) * 3, 3
        }
        for (i = 0; i < actions; i++) print "order", i % 64, 8
    }'
}

# PROGRAM INPUT OUTPUT WORD..: one run. Its status, nanoseconds and KiB.
once() {
    program=$1 input=$2 output=$3
    shift 3
    begin=$(date +%s%N)
    if [ -x /usr/bin/time ]; then
        /usr/bin/time -q -f '%M' -o "$work/memory" "$program" "$@" < "$input" > "$output" 2> "$work/err"
        status=$?
    else
        "$program" "$@" < "$input" > "$output" 2> "$work/err"
        status=$?
        echo - > "$work/memory"
    fi
    end=$(date +%s%N)
    echo "$status $((end - begin)) $(cat "$work/memory")"
}

# FILE: of the runs in it the one with the middle nanoseconds, as status, seconds and KiB.
middle() {
    sort -n -k 2 "$1" | awk '{ run[NR] = $0 } END { split(run[int((NR + 1) / 2)], it, " "); printf "%d %.3f %s\n", it[1], it[2] / 1e9, it[3] }'
}

# NAME SECONDS KIB: a program's part of a line, of as many steps as were counted.
told() {
    echo "$2 $3 $steps" | awk -v name="$1" '{
        printf "    %-8s %8s s  %8s KiB", name, $1, $2
        if ($3 > 0) printf "  %.3f us/step", $1 * 1000000 / $3
        if ($3 > 0 && $2 != "-") printf "  %.0f bytes/step", $2 * 1024 / $3
    }'
}

# NAME INPUT: the runs of both programs, measured.
measure() {
    : > "$work/runs"
    : > "$work/plain-runs"
    for run in $(seq "$rounds"); do
        once "$binary" "$2" "$work/out" replay >> "$work/runs"
        once "$work/plain" "$2" "$work/plain-out" >> "$work/plain-runs"
    done
    steps=$(grep -c '^step ' "$work/out")
    read -r status seconds memory << END
$(middle "$work/runs")
END
    read -r _ plain_seconds plain_memory << END
$(middle "$work/plain-runs")
END
    echo "$1: in $(wc -c < "$2"), steps $steps, out $(wc -c < "$work/out"), status $status"
    told wbsim "$seconds" "$memory"
    echo "$seconds $plain_seconds" | awk '$2 > 0 { printf "  ratio %.2f", $1 / $2 }'
    echo
    told plain "$plain_seconds" "$plain_memory"
    cmp -s "$work/out" "$work/plain-out" || { printf '  differs' && differ=1; }
    echo
}

# Whether the plain program prints the journals that lie beside the examples.
compare_examples() {
    for trace in "$root"/examples/*.trace; do
        "$work/plain" < "$trace" > "$work/out"
        if [ -f "${trace%.trace}.journal" ]; then
            cmp -s "$work/out" "${trace%.trace}.journal"
        elif [ -f "${trace%.trace}.sum" ]; then
            sha256sum < "$work/out" | cut -d ' ' -f 1 | cmp -s - "${trace%.trace}.sum"
        fi || { echo "bench/replay.sh: the plain program prints another journal of $(basename "$trace")" >&2; differ=1; }
    done
}

differ=0
compare_examples
measure "the realistic trace" "$root/examples/realistic.trace"
pressed > "$work/pressed"
measure "4 CPUs, 20000 pages, pauses" "$work/pressed"
for part in 16 32 64; do
    limits $part > "$work/limits"
    measure "$part 64ths of the limits" "$work/limits"
done
machine 960 8 65536 > "$work/orders"
measure "64 CPUs, 65536 order lines" "$work/orders"
machine 960 2184 0 > "$work/scans"
measure "64 CPUs, 960 inodes, 2096640 pages" "$work/scans"
machine 960 1092 0 > "$work/half"
measure "64 CPUs, 960 inodes, 1048320 pages" "$work/half"
alone 1 > "$work/alone"
measure "one CPU, 2097152 pages" "$work/alone"
one=$seconds plain_one=$plain_seconds
alone 64 > "$work/among"
measure "one CPU of 64 at work, 2097152 pages" "$work/among"
echo "$seconds $one $plain_seconds $plain_one" | awk '$2 > 0 && $4 > 0 { printf "64 CPUs beside one: wbsim %.2f, plain %.2f\n", $1 / $2, $3 / $4 }'
for exponent in 20 21 22; do
    resting $((25 * (1 << exponent))) > "$work/resting"
    measure "a rest of 25 * 2^$exponent ticks" "$work/resting"
done
resting 1000000000 > "$work/spent"
measure "a rest of 10^9 ticks: spent" "$work/spent"
restless > "$work/restless"
measure "256 tasks, 65536 actions" "$work/restless"
exit "$differ"
