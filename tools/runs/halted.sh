# A run that is halted.

{ cat "$root/examples/two-pages.trace"; echo 'halt 3'; } > "$work/in"
printf '%s\n' timer 'limits 0 1 19995 9985 19995' 'cpu 0' 'write 0 0 fresh' steps 'step 1 0 dirty 1 21067' 'step 2 0 add 1 21067' \
    'step 3 0 add 1 21067' 'left 0 dirty' 'census 1 0' 'totals 1 0' 'end halted' > "$work/wanted"
expect "replay: a halted run" 0 "" "$work/wanted" replay < "$work/in"
