# A run that is spent.

# A task rests for 10^9 ticks before it writes, while flusher and timer go on: a step is due after the last one that a replay may have.
# The run is spent also where nothing can be written.
{ machine; printf '%s\n' 'flusher 0 0 0' 'rest 0 1000000000' 'write 0 0 0 1'; } > "$work/in"
if fits 270 "replay: a spent run" "replay: a spent run and a full device"; then
    "$binary" replay < "$work/in" > "$work/whole" 2> "$work/err"
    status=$?
    { grep -c '^step ' "$work/whole"; tail -n 1 "$work/whole"; } > "$work/out"
    rm -f "$work/whole"
    printf '%s\n' 4194304 'end spent' > "$work/wanted"
    judge "replay: a spent run" 7 "$status" "wbsim: spent" "$work/wanted"
    expect_full "replay: a spent run and a full device" 7 "wbsim: spent" replay < "$work/in"
fi

# A rest that is the task's last action doesn't delay its end.
{ machine; printf '%s\n' 'flusher 0 0 0' 'rest 0 1000000000'; } > "$work/in"
expect "replay: a rest at the end" 0 "" "$root/examples/empty.journal" replay < "$work/in"
