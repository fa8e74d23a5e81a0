# Words that are no command.

usage="wbsim: usage: wbsim replay, check, law, run, audit, bulk N or forecast EVERY"

# The script refuses them before it compiles anything. A word after a command may be a file there, and --help is its own.
# A sign stands for a space in these.
forecasts='forecast forecast=0 forecast=01 forecast=1000000001 forecast=+1'
for words in '' Replay --help bulk 'bulk 3' 'bulk 07' 'bulk +7' 'bulk 2097153' 'bulk 7 7' 'run x' 'audit x' 'replay check' \
    'forecast 1 2' $forecasts; do
    words=$(echo "$words" | tr = ' ')
    # Each list of words is split at its spaces.
    expect "words '$words'" 1 "$usage" /dev/null $words < "$root/examples/empty.trace"
done
for words in '' Replay bulk 'bulk 3' 'bulk 07' 'bulk +7' 'bulk 2097153' 'bulk 7 7' 'run x y' 'run -x' 'audit x y z' '--version x' \
    'forecast 1 x y' $forecasts; do
    words=$(echo "$words" | tr = ' ')
    WBSIM_QUIET=1 "$root/wbsim" $words > "$work/out" 2> "$work/err" < "$root/examples/empty.trace"
    judge "./wbsim: words '$words'" 1 $? "$usage" /dev/null
done

# The version is the script's alone, which says it without a program.
expect "words '--version'" 1 "$usage" /dev/null --version < "$root/examples/empty.trace"
"$root/wbsim" --version > "$work/version" 2> "$work/err"
status=$?
grep -cxE 'wbsim [0-9a-f]{12} (proved|unproved|unbuilt)' "$work/version" > "$work/out"
echo 1 > "$work/wanted"
judge "./wbsim: words '--version'" 0 $status "" "$work/wanted"

# A word that is no text in UTF-8 is none of a command either.
no_text=$(printf 'replay\377')
expect "a word that is no text" 1 "$usage" /dev/null "$no_text" < "$root/examples/empty.trace"
expect "a second word that is no text" 1 "$usage" /dev/null replay "$no_text" < "$root/examples/empty.trace"
