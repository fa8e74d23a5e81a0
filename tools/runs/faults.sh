# Each command, of which the one with a number is split at its space: input that fails or is too long, output that fails.

yes | head -c 67108865 > "$work/long"
head -c 67108864 "$work/long" > "$work/most"
quiet_journal > "$work/quiet"
to_judge "$root/examples/empty.trace" "$work/quiet"
mv "$work/in" "$work/lawful"
for command in replay check law run audit 'forecast 1000'; do
    case $command in
        law) example=$root/examples/decision.law ;;
        audit) example=$work/lawful ;;
        *) example=$root/examples/two-pages.trace ;;
    esac
    expect "$command: a closed input" 3 "wbsim: read fault" /dev/null $command <&-
    expect "$command: a directory as input" 3 "wbsim: read fault" /dev/null $command < "$work"
    expect_full "$command: a full device" 4 "wbsim: write fault" $command < "$example"
    expect "$command: 2^26 + 1 bytes" 8 "wbsim: input too long" /dev/null $command < "$work/long"
    # audit looks through all lines for the one between trace and journal.
    seconds=7
    [ "$command" != audit ] || seconds=29
    fits $seconds "$command: 2^26 bytes" || continue
    expect "$command: 2^26 bytes" 2 "wbsim: line 1: bad line" /dev/null $command < "$work/most"
done
for command in replay 'forecast 1000'; do
    : > "$work/out"
    "$binary" $command < "$root/examples/two-pages.trace" 2> "$work/err" >&-
    judge "$command: a closed output" 4 $? "wbsim: write fault" /dev/null
done
# The address space has room for the program, and none for so many bytes (-v is of every shell that Linux has, if not of POSIX). A build
# that checks itself as it runs has no room there.
(ulimit -v 60000 && exec "$binary" no-command) > "$work/out" 2> "$work/err"
if [ $? -eq 1 ]; then
    (ulimit -v 60000 && exec "$binary" check < "$work/most") > "$work/out" 2> "$work/err"
    judge "check: no memory" 6 $? "wbsim: no memory" /dev/null
else
    skip "check: no memory" "this program needs more to begin"
fi
