#!/bin/sh
# Measures `wbsim bulk` beside a plain program of threads that makes the same atomic operations a page without the control.
#
# usage: bench/bulk.sh [BINARY]
#
# BINARY is the proved binary unless given. The plain program, plain.c, is compiled with $CC, or cc, at -O2. Each is run with 100000,
# 1000000 and 2000000 pages on 1, 2 and 4 CPUs, as far as the machine has them. A line for each: the pages, the CPUs, the microseconds a page
# and the bytes of peak resident memory a page (`-` where GNU time isn't there), of the least of three runs; and of the plain program. The
# disks of a bulk run write 1048576 pages a second each, by the machine's clock, so that no run takes less than about half a microsecond
# a page.
#
# Then, for each number of pages, the processor time a page on all CPUs, of the least of three times as many runs as write 2000000 pages
# together; and at last that of 2000000 pages beside that of 100000. The disks are cyclic: a scan goes on where the last one ended. As long as
# quotas close scans, none looks again at a page that the one before it has cleaned, and a page is looked at once. A scan that finds fewer dirty
# pages than its quota passes all pages of its inode, clean ones too, which is a look more for each. It comes where a flusher has caught up with
# the writer, and once after the last page of an inode, which the scan before it has marked again. So the looks for a page grow with the inodes
# only where flushers wait for writers. We want a quotient of at most 1.3: the status is 1 where it is above.
# Nothing here is proved, and no claim is made of speed.
root=$(cd "$(dirname "$0")/.." && pwd) || exit 70
binary=${1:-$root/crates/wbsim_top/out/wbsim_top}
[ -x "$binary" ] || { echo "bench/bulk.sh: no binary at $binary: rt ci builds it" >&2; exit 70; }
command -v taskset > /dev/null || { echo "bench/bulk.sh: no taskset" >&2; exit 70; }

work=$(mktemp -d) || exit 70
trap 'rm -rf "$work"' EXIT
${CC:-cc} -O2 -pthread -o "$work/plain" "$root/bench/plain.c" || { echo "bench/bulk.sh: plain.c isn't compiled" >&2; exit 70; }

# CPUS PAGES WORD..: one run on so many CPUs. Its microseconds and KiB, or that it went wrong.
once() {
    cpus=$1 pages=$2
    shift 2
    begin=$(date +%s%N)
    if [ -x /usr/bin/time ]; then
        taskset -c "0-$((cpus - 1))" /usr/bin/time -q -f '%M' -o "$work/memory" "$@" > "$work/out" 2> "$work/err"
        status=$?
    else
        taskset -c "0-$((cpus - 1))" "$@" > "$work/out" 2> "$work/err"
        status=$?
        echo - > "$work/memory"
    fi
    end=$(date +%s%N)
    if [ $status -ne 0 ] || [ "$(cat "$work/out")" != "bulk $pages dirtied $pages cleaned $pages left 0" ]; then
        echo "bench/bulk.sh: $* on $cpus CPUs: status $status: $(head -n 1 "$work/out" "$work/err")" >&2
        exit 70
    fi
    echo $(((end - begin) / 1000)) "$(cat "$work/memory")"
}

# CPUS PAGES WORD..: the run of three that took the least time.
least() {
    for run in 1 2 3; do
        once "$@" || exit 70
    done | sort -n | head -n 1
}

for pages in 100000 1000000 2000000; do
    for cpus in 1 2 4; do
        [ "$cpus" -le "$(nproc)" ] || continue
        ruled=$(least "$cpus" "$pages" "$binary" bulk "$pages") && [ -n "$ruled" ] || exit 70
        plain=$(least "$cpus" "$pages" "$work/plain" "$pages") && [ -n "$plain" ] || exit 70
        echo "$pages $cpus $ruled $plain" | awk '{
            printf "%8d pages %d CPUs  %8.3f us a page, %5s bytes a page  plain %8.3f us, %5s bytes  ratio %.2f\n",
                $1, $2, $3 / $1, ($4 == "-" ? "-" : sprintf("%.0f", $4 * 1024 / $1)), $5 / $1, ($6 == "-" ? "-" : sprintf("%.0f", $6 * 1024 / $1)), $3 / $5
        }'
    done
done

# PAGES: runs of so many pages, of 2000000 together. The seconds that they took a processor, by what the shell has counted of them.
busy() {
    times > "$work/before"
    left=2000000
    while [ "$left" -gt 0 ]; do
        "$binary" bulk "$1" > "$work/out" || { echo "bench/bulk.sh: $binary fails with $1 pages" >&2; exit 70; }
        left=$((left - $1))
    done
    times > "$work/after"
    awk -F '[ms ]+' 'FNR == 2 { took = 60 * ($1 + $3) + $2 + $4 - took } END { print took }' "$work/before" "$work/after"
}

for pages in 100000 1000000 2000000; do
    for run in 1 2 3; do
        busy "$pages" || { : > "$work/failed"; exit 70; }
    done | sort -n | head -n 1 > "$work/least"
    [ ! -e "$work/failed" ] || exit 70
    awk -v pages="$pages" '{ printf "%8d pages  %8.3f us of a processor a page\n", pages, $1 / 2 }' "$work/least"
    cat "$work/least" >> "$work/busy"
done
awk 'NR == 1 { few = $1 }
    END {
        printf "2000000 pages beside 100000: %.2f times the processor time a page\n", $1 / few
        exit ($1 / few > 1.3)
    }' "$work/busy"
