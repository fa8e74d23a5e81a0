# Runs over threads, which are the same at each run but for their order and their moments.

cleaned run "$root/examples/empty.trace" '0 0'
cleaned run "$root/examples/two-pages.trace" '2 2'
cleaned run "$root/examples/fold.trace" '8 8'
cleaned run "$root/examples/strict-pages.trace" '2 2'
cleaned run "$root/examples/age-pages.trace" '2 2'
fits 40 "run: realistic.trace" && cleaned run "$root/examples/realistic.trace" '80000 80000'
for pages in 4 1000 100000; do
    seconds=1
    [ $pages -ne 100000 ] || seconds=65
    fits $seconds "bulk $pages" "bulk $pages: a closed input" || continue
    echo "bulk $pages dirtied $pages cleaned $pages left 0" > "$work/wanted"
    expect "bulk $pages" 0 "" "$work/wanted" bulk $pages < /dev/null
    expect "bulk $pages: a closed input" 0 "" "$work/wanted" bulk $pages <&-
done
expect_full "bulk: a full device" 4 "wbsim: write fault" bulk 4 < /dev/null
