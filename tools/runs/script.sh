# The script ./wbsim, by a link, in another folder, on files.

if [ "${binary#"$root"/}" != "$binary" ]; then
    export WBSIM_QUIET=1
    ln -s "$root/wbsim" "$work/link"
    cp "$root/examples/two-pages.trace" "$work/a.trace"
    (cd / && exec "$work/link" replay) > "$work/out" 2> "$work/err" < "$root/examples/two-pages.trace"
    judge "./wbsim by a link" 0 $? "" "$root/examples/two-pages.journal"
    (cd "$work" && exec ./link replay a.trace -o a.journal) > "$work/written" 2> "$work/err"
    status=$?
    cp "$work/a.journal" "$work/out"
    judge "./wbsim: a file, and one to write" 0 $status "" "$root/examples/two-pages.journal"
    "$work/link" run "$work/a.trace" 2> "$work/err" | "$work/link" audit "$work/a.trace" - > "$work/out" 2>> "$work/err"
    status=$?
    echo lawful > "$work/wanted"
    judge "./wbsim: an audit of two files" 0 $status "" "$work/wanted"
    sed 's/^count 0 2 32/count 0 2 31/' "$root/examples/checked-run.audit" > "$work/b.audit"
    "$work/link" audit "$work/b.audit" > "$work/out" 2> "$work/err"
    status=$?
    echo 'broken clause 3 line 47' > "$work/wanted"
    judge "./wbsim: the README's audit" 11 $status "wbsim: unlawful" "$work/wanted"
    "$work/link" replay "$work/a.trace" > /dev/full 2> "$work/err"
    status=$?
    : > "$work/out"
    judge "./wbsim: a full device" 4 $status "wbsim: write fault" /dev/null
    { "$work/link" replay "$root/examples/settled.trace" 2> "$work/err"; echo $? > "$work/out"; } | true
    echo 4 > "$work/wanted"
    judge "./wbsim: a pipe without a reader" 0 0 "" "$work/wanted"
    sed 's/^cpus 1/cpus 65/' "$work/a.trace" > "$work/b.trace"
    (cd "$work" && WBSIM_QUIET= ./link check b.trace) > "$work/out" 2> "$work/said"
    status=$?
    grep -vx 'wbsim: unproved' "$work/said" > "$work/err"
    judge "./wbsim: a refusal" 2 $status "wbsim: line 1: out of range
wbsim: see $root/tools/wb why b.trace" /dev/null
    # A run says that it isn't proved just where the version does.
    WBSIM_QUIET= "$work/link" check "$root/examples/empty.trace" 2>&1 > "$work/checked" | grep -qx 'wbsim: unproved' && wanted='unproved$' || wanted=' proved$'
    "$work/link" --version 2> "$work/err" | grep -c "$wanted" > "$work/out"
    echo 1 > "$work/wanted"
    judge "./wbsim by a link: the version" 0 0 "" "$work/wanted"
    unset WBSIM_QUIET
else
    skip "./wbsim by a link, and with files" "the program given is none that ./wbsim runs"
fi
