#!/bin/sh
# Measures `wbsim forecast` beside a plain program, and beside `wbsim replay`, on runs of one CPU of 2^20 and of 2^27 steps.
#
# usage: bench/forecast.sh [BINARY]
#
# BINARY is the proved binary unless given. The plain program, plain-replay.rs, is compiled with $RUSTC, or rustc, at -O; its forecasts of the
# examples are compared with those that lie there first. Two machines are measured. One is quiet: a task rests, while its flusher tests the limits,
# an estimate is updated and the timer publishes, fourteen steps in 200 ticks. The other is busy: a task writes as fast as it may to a disk of 100 MB a
# second, and is paused. For each run: the steps, the bytes written and the status, and of both programs the seconds, the nanoseconds a step and the
# peak of resident memory in KiB (`-` where GNU time isn't there). The replay of the least run stands beside them. Each is run $ROUNDS times, or
# three, one program after the other, and the run with the middle time is shown.
#
# We want at most 150 nanoseconds a step, at most the time of the plain program, and a peak of memory that differs by at most a tenth between 2^20
# and 2^27 steps: what is beyond is named, and the status is 1 then, as where the two programs print something else. $EXPONENTS names other numbers
# of steps, as powers of two, with the least first. Nothing here is proved, and no claim is made of speed.
root=$(cd "$(dirname "$0")/.." && pwd) || exit 70
binary=${1:-$root/crates/wbsim_top/out/wbsim_top}
[ -x "$binary" ] || { echo "bench/forecast.sh: no binary at $binary: rt ci builds it" >&2; exit 70; }

rounds=${ROUNDS:-3}
exponents=${EXPONENTS:-20 27}
every=10000
most_nanoseconds=150

work=$(mktemp -d) || exit 70
trap 'rm -rf "$work"' EXIT
trap 'exit 70' HUP INT TERM
${RUSTC:-rustc} -O -o "$work/plain" "$root/bench/plain-replay.rs" || { echo "bench/forecast.sh: plain-replay.rs isn't compiled" >&2; exit 70; }

# EXPONENT: the quiet machine, whose task rests for so long that 2^EXPONENT steps are made.
quiet() {
    printf '%s\n' 'cpus 1' 'avail 0 100000' 'device 0 25600 0 100' 'context 0 0 0' 'inode 0 0 2' 'task 0 0' 'flusher 0 0 0' \
        "rest 0 $((100 * (1 << $1) / 7))" 'write 0 0 0 1'
}

# EXPONENT: the busy machine. A page takes some eleven steps, and each file is written again and again.
busy() {
    awk -v pages=$(((1 << $1) / 11)) 'BEGIN {
        print "cpus 1"
        print "avail 0 200000"
        print "device 0 25600 0 100"
        print "chunk 0 256"
        print "cyclic 0"
        print "context 0 0 0"
        for (i = 0; i < 64; i++) print "inode", i, 0, 16384
        print "task 0 0"
        print "pace 0 32 1"
        print "flusher 0 0 0"
        for (i = 0; i * 16384 < pages; i++) {
            rest = pages - i * 16384
            print "write 0", i % 64, 0, rest < 16384 ? rest : 16384
        }
    }'
}

# INPUT OUTPUT PROGRAM WORD..: one run. Its status, nanoseconds and KiB.
once() {
    input=$1 output=$2
    shift 2
    echo - > "$work/memory"
    begin=$(date +%s%N)
    if [ -x /usr/bin/time ]; then
        /usr/bin/time -q -f '%M' -o "$work/memory" "$@" < "$input" > "$output" 2> "$work/err"
    else
        "$@" < "$input" > "$output" 2> "$work/err"
    fi
    status=$?
    end=$(date +%s%N)
    echo "$status $((end - begin)) $(tail -n 1 "$work/memory")"
}

# FILE: of the runs in it the one with the middle time.
middle() {
    sort -n -k 2 "$1" | awk '{ run[NR] = $0 } END { print run[int((NR + 1) / 2)] }'
}

# NAME NANOSECONDS KIB: what is told of a program's runs, of as many steps as were counted.
told() {
    awk -v name="$1" -v time="$2" -v memory="$3" -v steps="$steps" 'BEGIN {
        printf "    %-16s %9.3f s  %7.1f ns a step  %8s KiB\n", name, time / 1e9, time / steps, memory
    }'
}

# WHAT: names what is beyond what we want.
beyond() {
    echo "    beyond: $*"
    status_of_all=1
}

# NAME INPUT: measures both programs on an input.
measure() {
    : > "$work/runs"
    : > "$work/plain-runs"
    for run in $(seq "$rounds"); do
        once "$2" "$work/out" "$binary" forecast $every >> "$work/runs"
        once "$2" "$work/plain-out" "$work/plain" forecast $every >> "$work/plain-runs"
    done
    steps=$("$work/plain" forecast $every steps < "$2" 2>&1 > "$work/plain-out")
    read -r status time memory << END
$(middle "$work/runs")
END
    read -r _ plain_time plain_memory << END
$(middle "$work/plain-runs")
END
    echo "$1: steps $steps, out $(wc -c < "$work/out"), status $status"
    told wbsim "$time" "$memory"
    told plain "$plain_time" "$plain_memory"
    cmp -s "$work/out" "$work/plain-out" || beyond "the two programs print something else"
    [ "$time" -le $((most_nanoseconds * steps)) ] || beyond "more than $most_nanoseconds ns a step"
    [ "$time" -le "$plain_time" ] || beyond "more than the time of the plain program"
}

# INPUT: a replay of it beside its forecast.
measure_replay() {
    : > "$work/runs"
    for run in $(seq "$rounds"); do
        once "$1" "$work/out" "$binary" replay >> "$work/runs"
    done
    read -r _ time replay_memory << END
$(middle "$work/runs")
END
    told "wbsim replay" "$time" "$replay_memory"
}

# Whether the plain program tells the forecasts that lie beside the examples.
compare_examples() {
    for forecast in "$root"/examples/*.forecast; do
        read -r _ interval < "$forecast"
        "$work/plain" forecast "$interval" < "${forecast%.forecast}.trace" | cmp -s - "$forecast" ||
            beyond "the plain program tells another forecast of $(basename "${forecast%.forecast}")"
    done
}

status_of_all=0
compare_examples
for machine in quiet busy; do
    first=
    for exponent in $exponents; do
        $machine "$exponent" > "$work/in"
        measure "$machine, about 2^$exponent steps" "$work/in"
        if [ -n "$first" ]; then
            echo "$memory $first" | awk '$1 != "-" && $2 != "-" { exit $1 > 1.1 * $2 || 1.1 * $1 < $2 }' ||
                beyond "a peak of $memory KiB, where the least run has $first"
        else
            first=$memory
            [ "$steps" -gt 4194304 ] || measure_replay "$work/in"
        fi
    done
done
exit $status_of_all
