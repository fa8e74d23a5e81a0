#!/bin/sh
# Measures what a study takes beside the replays that it makes.
#
# usage: bench/study.sh [BINARY [REPLAYS [SLOW [SLOWS]]]]
#
# BINARY is the proved binary unless given. REPLAYS (1000) are of examples/two-disks.trace, which is short, and SLOWS (32) of SLOW
# (examples/realistic.trace), a trace whose replay takes about a second. JOBS in the environment is how many run side by side, all processors
# unless given, and ROUNDS how often each is measured, 3 times unless given. RUNS_A_JOB is how many runs a job has, which `tools/wb study`
# chooses unless given.
#
# The replays are made by themselves, and as a study from its start to its table, with GNU parallel. By themselves they are the same program
# with the same inputs: a loop of a shell on each processor, which starts a process for each replay and has its journal written to a file in
# memory. A study of repeats has one trace, one of settings changes the rate of device 0 at each replay. A line for each: the seconds by
# themselves, as a study, and the ratio, each of the least of all rounds, in which the two take turns. Then what a study of one replay takes,
# and what each further one costs a processor beside itself. The status is 1 where a row is missing. Nothing here is proved, and no claim is
# made of speed. bench/resume.sh measures what a study does that is killed.
root=$(cd "$(dirname "$0")/.." && pwd) || exit 70
binary=$(readlink -f "${1:-$root/crates/wbsim_top/out/wbsim_top}")
replays=${2:-1000}
slow=${3:-$root/examples/realistic.trace}
slows=${4:-32}
jobs=${JOBS:-$(nproc)}
[ -x "$binary" ] || { echo "bench/study.sh: no binary at $binary: rt ci builds it" >&2; exit 70; }
for needed in parallel python3; do
    command -v $needed > /dev/null || { echo "bench/study.sh: no $needed" >&2; exit 70; }
done
python=$(python3 -c 'import sys; print(sys.executable)') || exit 70

work=$(mktemp -d) || exit 70
memory=$(mktemp -d -p /dev/shm 2> /dev/null) || memory=$work
trap 'rm -rf "$work" "$memory"' EXIT
trap 'exit 1' HUP INT TERM
failed=0

# WORD..: the seconds that it takes.
seconds() {
    begin=$(date +%s%N)
    "$@" > "$work/said" 2>&1 || { cat "$work/said" >&2; exit 70; }
    end=$(date +%s%N)
    echo $(((end - begin) / 1000)) | awk '{ printf "%.3f\n", $1 / 1000000 }'
}

# FILE: the least of its lines.
least() {
    sort -n "$1" | head -n 1
}

# The replays by themselves: those of each list of inputs, on a processor.
alone() {
    for list in "$work"/list-*; do
        while read -r trace; do
            "$binary" replay < "$trace" > "$memory/journal-${list##*-}"
        done < "$list" &
    done
    wait
}

study() {
    rm -rf "$work/out"
    "$python" "$root/tools/wb" study "$work/study.toml" "$work/out" --binary "$binary" --jobs "$jobs" ${RUNS_A_JOB:+--runs-a-job "$RUNS_A_JOB"} "$@"
}

# NAME TRACE MANY LINE..: replays of a trace by themselves, and as a study that has these lines too.
measure() {
    name=$1 many=$3
    printf 'traces = ["%s"]\nkeep = ["traces"]\n' "$(readlink -f "$2")" > "$work/study.toml"
    shift 3
    printf '%s\n' "$@" >> "$work/study.toml"
    study > /dev/null || exit 70
    rm -rf "$work/inputs" "$work"/list-*
    mkdir "$work/inputs"
    mv "$work"/out/run-*.trace "$work/inputs"
    ls "$work"/inputs/* | split -n "r/$jobs" - "$work/list-"
    sed -i '/^keep/d' "$work/study.toml"
    rm -f "$work/alone" "$work/study"
    for round in $(seq "${ROUNDS:-3}"); do
        seconds alone >> "$work/alone"
        seconds study >> "$work/study"
    done
    rm -f "$work"/list-*
    rows=$(tail -n +2 "$work/out/runs.csv" | cut -d , -f 1 | sort -u | wc -l)
    [ "$rows" -eq "$many" ] || failed=1
    echo "$(least "$work/alone") $(least "$work/study") $rows" | awk -v name="$name" -v jobs="$jobs" '{
        printf "%-34s %d side by side  by themselves %8.3f s  as a study %8.3f s  ratio %.2f  %d rows\n", name, jobs, $1, $2, $2 / $1, $3 }'
    echo "$(least "$work/alone") $(least "$work/study")" > "$work/latest"
}

# FIRST MANY: so many rates, from a first one.
rates() {
    printf '[over]\ndevice-0 = ["%d..%d..1"]' "$1" $(($1 + $2 - 1))
}

measure "1 replay" "$root/examples/two-disks.trace" 1 ""
cp "$work/latest" "$work/one"
measure "$replays repeats" "$root/examples/two-disks.trace" "$replays" "repeats = $replays"
measure "$replays settings" "$root/examples/two-disks.trace" "$replays" "$(rates 1000 "$replays")"
cat "$work/one" "$work/latest" | tr '\n' ' ' | awk -v jobs="$jobs" -v many="$replays" '{
    printf "a study of one replay takes %.2f s more than it, and each further replay %.2f ms of a processor more\n",
        $2 - $1, 1000 * jobs * (($4 - $2) - ($3 - $1)) / (many - 1) }'
rate=$(awk '$1 == "device" && $2 == 0 { print $3 }' "$slow")
measure "$slows settings of $(basename "$slow")" "$slow" "$slows" "$(rates "$rate" "$slows")"
exit $failed
