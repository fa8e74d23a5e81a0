# Forecasts: what they print, of each example too and of a run that is longer than a replay may be, and where a piece of the output can't be written.

printf '%s\n' 'forecast 1000' 'from 0' 'domain 0 0 2 19995 21067' 'context 0 2 2 25600 25600 25600' 'task 0 2 0 0 0 0' 'totals 2 2' 'end done' > "$work/wanted"
expect "forecast: two pages" 0 "" "$work/wanted" forecast 1000 < "$root/examples/two-pages.trace"
{ cat "$root/examples/two-pages.trace"; echo 'halt 3'; } > "$work/in"
printf '%s\n' 'forecast 1' 'from 1' 'domain 0 1 1 19995 21067' 'context 0 1 0 25600 25600 25600' 'task 0 1 0 0 0 0' 'totals 1 0' 'end halted' > "$work/wanted"
expect "forecast: a halted run" 0 "" "$work/wanted" forecast 1 < "$work/in"
printf '%s\n' 'forecast 5' 'totals 0 0' 'end done' > "$work/wanted"
expect "forecast: nothing to do" 0 "" "$work/wanted" forecast 5 < "$root/examples/empty.trace"

# A task writes a page a tick, and each tick is an interval. The text is written in pieces, of 64 KiB and at most some rows, and the last one is smaller.
# tools/replay.py prints it.
{ machine | sed 's/^inode 0 0 2/inode 0 0 3000/'; printf '%s\n' 'flusher 0 0 0' 'pace 0 1 1' 'write 0 0 0 3000'; } > "$work/in"
"$binary" forecast 1 < "$work/in" > "$work/whole" 2> "$work/err"
status=$?
sha256sum < "$work/whole" | cut -d ' ' -f 1 > "$work/out"
echo 6b88e8aa50174cc2e1b23eb3531854b44c7d222df9d65d52896521e89dfea000 > "$work/wanted"
judge "forecast: a page a tick" 0 $status "" "$work/wanted"

# BLOCKS: where there is room for as many blocks of it, the forecast ends with a write fault, and what there was room for stays.
cut_off() {
    (trap '' XFSZ && ulimit -f "$1" && exec "$binary" forecast 1 < "$work/in") > "$work/out" 2> "$work/err"
    status=$?
    head -c $(($1 * 512)) "$work/whole" > "$work/wanted"
    judge "forecast: room for $1 blocks" 4 $status "wbsim: write fault" "$work/wanted"
}

# Up to the middle of each piece in turn, and nearly up to the end.
size=$(wc -c < "$work/whole")
blocks=64
while [ $((blocks * 512)) -lt "$size" ]; do
    cut_off $blocks
    blocks=$((blocks + 128))
done
cut_off $(((size - 1) / 512))

# A task rests for so long that 4.9 million steps are made, more than a replay may have, and then writes. The rows go on.
if fits 110 "forecast: longer than a replay"; then
    { machine; printf '%s\n' 'flusher 0 0 0' 'rest 0 70000000' 'write 0 0 0 1'; } > "$work/in"
    {
        echo 'forecast 10000000'
        for number in 0 1 2 3 4 5 6; do
            printf '%s\n' "from $number" 'domain 0 0 0 19995 21067' 'context 0 0 0 0 7 25600'
        done
        printf '%s\n' 'from 7' 'domain 0 0 1 19995 21067' 'context 0 1 1 0 7 25600' 'task 0 1 0 0 0 0' 'totals 1 1' 'end done'
    } > "$work/wanted"
    expect "forecast: longer than a replay" 0 "" "$work/wanted" forecast 10000000 < "$work/in"
fi

# The rows of each example add up to what its journal tells: by context the pages that were dirtied and written, by task its pages, checks, pauses,
# their ticks and the longest, and the end.
sums='
    function check(task, pause) {
        checks[task]++
        pauses[task] += pause > 0
        ticks[task] += pause
        if (pause > longest[task]) longest[task] = pause
    }
    $1 == "totals" || $1 == "end" { last = last " " $0 }
    END {
        for (it in dirtied) if (dirtied[it] + written[it]) print "context", it, dirtied[it], written[it] + 0
        for (it in pages) print "task", it, pages[it], checks[it] + 0, pauses[it] + 0, ticks[it] + 0, longest[it] + 0
        print last
    }'
of_trace_and_journal='
    $1 == "inode" { for (i = 0; i < $4; i++) context[page++] = $3 }
    $1 == "write" && NF == 4 { pages[$2]++; dirtied[context[$3]] += $4 == "fresh" }
    $1 == "done" { written[context[$3]]++ }
    $1 == "check" { check($2, $7) }'
of_forecast='
    $1 == "context" { dirtied[$2] += $3; written[$2] += $4 }
    $1 == "task" { pages[$2] += $3; checks[$2] += $4; pauses[$2] += $5; ticks[$2] += $6; if ($7 > longest[$2]) longest[$2] = $7 }'
for input in "$root"/examples/*.trace; do
    [ -f "${input%.trace}.journal" ] || continue
    awk "$sums$of_trace_and_journal" "$input" "${input%.trace}.journal" | sort > "$work/wanted"
    "$binary" forecast 77 < "$input" > "$work/whole" 2> "$work/err"
    status=$?
    awk "$sums$of_forecast" "$work/whole" | sort > "$work/out"
    judge "forecast: the sums of $(basename "$input")" 0 $status "" "$work/wanted"
done
