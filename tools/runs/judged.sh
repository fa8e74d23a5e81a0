# Journals that are judged.

# NAME STATUS SENTENCE: what audit says of $work/in where nothing can be written.
judged_full() {
    expect_full "audit: $1: a full device" "$2" "$3" audit < "$work/in"
}

nothing=$root/examples/empty.trace
quiet_journal > "$work/quiet"
to_judge "$nothing" "$work/quiet"
judged "a journal that tells nothing" 0 "" lawful
judged_full "a journal that tells nothing" 4 "wbsim: write fault"
sed 's/19995$/19996/' "$work/quiet" > "$work/changed"
to_judge "$nothing" "$work/changed"
judged "a hard limit that doesn't follow" 11 "wbsim: unlawful" "broken clause 9 line 2"
judged_full "a hard limit that doesn't follow" 11 "wbsim: unlawful"
to_judge "$root/examples/two-pages.trace" "$work/quiet"
judged "two pages that nobody wrote" 11 "wbsim: unlawful" "broken clause 16 line 6"
sed 's/^totals 0/totals 1/' "$work/quiet" > "$work/changed"
to_judge "$nothing" "$work/changed"
judged "totals that are no sums" 10 "wbsim: journal line 5: bad line" ""
cp "$nothing" "$work/in"
judged "a trace alone" 10 "wbsim: journal line 0: bad line" ""
to_judge "$nothing" /dev/null
judged "no text after the line" 10 "wbsim: journal line 1: bad line" ""
to_judge "$root/examples/two-pages.trace" "$root/examples/two-pages.journal"
judged "the journal of a replay" 10 "wbsim: journal line 12: bad line" ""
{ cat "$nothing"; printf '%s\n' 'task 1 0' 'rest 1 5'; } > "$work/rests"
to_judge "$work/rests" "$work/quiet"
judged "a task that rests last beside another" 12 "wbsim: unsettled" "unsettled task 1"
judged_full "a task that rests last beside another" 12 "wbsim: unsettled"
for lines in 0 1 2 3 4 5; do
    head -n $lines "$work/quiet" > "$work/changed"
    to_judge "$nothing" "$work/changed"
    judged "a journal of $lines lines of six" 10 "wbsim: journal line $((lines + 1)): bad line" ""
done
