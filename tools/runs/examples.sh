# The examples.

# COMMAND INPUT OUTPUT: a run that ends well, where the output is kept.
example() {
    [ ! -f "$3" ] || expect "$1 $(basename "$2")" 0 "" "$3" "$1" < "$2"
}

# COMMAND INPUT SUM: likewise, where the sha256 sum of the output is kept.
example_sum() {
    [ -f "$3" ] || return
    case $2 in
        */last-step-halted.trace) fits 270 "$1 last-step-halted.trace" || return ;;
    esac
    "$binary" "$1" < "$2" > "$work/whole" 2> "$work/err"
    status=$?
    sha256sum < "$work/whole" | cut -d ' ' -f 1 > "$work/out"
    rm -f "$work/whole"
    judge "$1 $(basename "$2")" 0 "$status" "" "$3"
}

# INPUT OUTPUT: likewise a forecast, whose output begins with how long its intervals are.
example_forecast() {
    [ -f "$2" ] || return
    read -r _ every < "$2"
    expect "forecast $every $(basename "$1")" 0 "" "$2" forecast "$every" < "$1"
}

for input in "$root"/examples/*.trace; do
    [ -f "${input%.trace}.journal" ] || [ -f "${input%.trace}.sum" ] || [ -f "${input%.trace}.out" ] || {
        echo "differs: $(basename "$input"): no output beside it"
        failed=$((failed + 1))
    }
    example replay "$input" "${input%.trace}.journal"
    example_sum replay "$input" "${input%.trace}.sum"
    example check "$input" "${input%.trace}.out"
    example_forecast "$input" "${input%.trace}.forecast"
done
for input in "$root"/examples/*.law; do
    example law "$input" "${input%.law}.out"
done
for input in "$root"/examples/*.audit; do
    example audit "$input" "${input%.audit}.out"
done
