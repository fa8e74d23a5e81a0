# The journals of a hundred runs over threads, each lawful for its trace.

# The last trace has a task that rests last beside another, so that the place of its end is open; it is written for this one.
{
    printf '%s\n' 'cpus 2' 'set dirty_background_bytes 4096' 'avail 0 2000' 'device 0 25600 0 100' 'device 1 2560 0 100' 'cgroup 1 300 300'
    printf '%s\n' 'context 0 0 0' 'context 1 1 1' 'expire 0 5' 'inode 0 0 64' 'inode 1 1 40' 'inode 2 0 9'
    printf '%s\n' 'task 0 0' 'task 1 0' 'task 2 1' 'flusher 0 0 1' 'flusher 1 1 0'
    printf '%s\n' 'write 0 0 0 64' 'write 1 1 0 40' 'rest 0 60' 'write 0 0 0 64' 'write 2 2 0 9' 'rest 2 100' 'write 2 0 32 32'
} > "$work/mixed.trace"
{ cat "$work/mixed.trace"; echo 'rest 1 20'; } > "$work/open.trace"
for number in 1 2 3 4 5 6 7 8 9 10; do
    for trace in two-pages two-cpus fold two-disks age-pages strict-pages strict-cgroup cgroup-available mixed open; do
        from=$root/examples/$trace.trace verdict=lawful said="" status=0
        [ -f "$from" ] || from=$work/$trace.trace
        [ $trace != open ] || { verdict='unsettled task 1' said='wbsim: unsettled' status=12; }
        "$binary" run < "$from" > "$work/journal" 2> "$work/err"
        to_judge "$from" "$work/journal"
        judged "run $number of $trace.trace" $status "$said" "$verdict"
    done
done
if fits 90 "audit: a run of realistic.trace"; then
    "$binary" run < "$root/examples/realistic.trace" > "$work/journal" 2> "$work/err"
    to_judge "$root/examples/realistic.trace" "$work/journal"
    judged "a run of realistic.trace" 0 "" lawful
fi
rm -f "$work/journal"
