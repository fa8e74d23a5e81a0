#!/bin/sh
# Measures whether judged runs that are killed go on without a run twice.
#
# usage: bench/resume.sh [BINARY [JUDGED]]
#
# BINARY is the proved binary unless given, JUDGED 10000. JOBS in the environment is how many run side by side, all processors unless given.
# With TRACE each run is of that file; else each is of a trace of its own, as tools/judge-runs makes it.
#
# JUDGED runs over threads are made and judged by `BINARY audit` (tools/judge-runs, with GNU parallel). When a third of them has begun, the
# process group of the call is killed by signal 9: GNU parallel puts its jobs into groups of their own, so these go on, and a call with
# --resume comes while they do. When two thirds have begun, each process of that call is killed. A last call makes the rest.
#
# A line for each call: how many runs had begun and had ended, and how many had their rows, when it was killed, and what it said at the end.
# Then how many runs have one row, none, and several, and how many were begun in all: those above JUDGED were begun again, since a kill came
# between their beginning and their row. The status is 1 where a run has not just one row, or where more were begun again than run side by
# side at a kill. Nothing here is proved, and no claim is made of speed.
root=$(cd "$(dirname "$0")/.." && pwd) || exit 70
binary=$(readlink -f "${1:-$root/crates/wbsim_top/out/wbsim_top}")
judged=${2:-10000}
jobs=${JOBS:-$(nproc)}
[ -x "$binary" ] || { echo "bench/resume.sh: no binary at $binary: rt ci builds it" >&2; exit 70; }
for needed in parallel python3 setsid ps; do
    command -v $needed > /dev/null || { echo "bench/resume.sh: no $needed" >&2; exit 70; }
done
python=$(python3 -c 'import sys; print(sys.executable)') || exit 70

work=$(mktemp -d) || exit 70
trap 'rm -rf "$work"' EXIT
trap 'exit 1' HUP INT TERM
failed=0

# A run adds a line to $work/begun when it begins, and one to $work/ended when it has ended.
cat > "$work/counted" << END
#!/bin/sh
[ "\$1" = run ] || exec $binary "\$@"
echo >> $work/begun
$binary run${TRACE:+ < $(readlink -f "$TRACE")}
status=\$?
echo >> $work/ended
exit \$status
END
cat > "$work/judge" << END
#!/bin/sh
${TRACE:+(cat $(readlink -f "$TRACE"); sed -n '/^journal\$/,\$p') | }$binary audit
END
chmod 755 "$work/counted" "$work/judge"

lines() {
    if [ -f "$1" ]; then wc -l < "$1"; else echo 0; fi
}

rows() {
    cat "$work"/judged/done/* 2> /dev/null | grep -c '^{.*}$'
}

# SECONDS since the beginning.
begin=$(date +%s)
since() {
    echo $(($(date +%s) - begin))
}

# PART WHO WORD..: a call that is killed when so many runs have begun.
killed() {
    part=$1 who=$2
    shift 2
    setsid "$python" "$root/tools/judge-runs" "$work/judge" "$judged" 0 50 --binary "$work/counted" --work "$work/judged" --jobs "$jobs" "$@" \
        > "$work/said" 2>&1 < /dev/null &
    session=$!
    while [ "$(lines "$work/begun")" -lt "$part" ] && kill -0 "$session" 2> /dev/null; do
        sleep 0.2
    done
    if [ "$who" = group ]; then
        kill -9 "-$session"
    else
        kill -9 $(ps -o pid= -s "$session") 2> /dev/null
    fi
    wait "$session" 2> /dev/null
    [ $? -eq 137 ] || { echo "the call had ended before it was killed" >&2; failed=1; }
    echo "after $(since) s killed, $who: begun $(lines "$work/begun"), ended $(lines "$work/ended"), rows $(rows)," \
        "processes that live on: $(ps -o pid= -s "$session" | wc -l)"
}

killed $((judged / 3)) group
killed $((2 * judged / 3)) all --resume
"$python" "$root/tools/judge-runs" "$work/judge" "$judged" 0 50 --binary "$work/counted" --work "$work/judged" --jobs "$jobs" --resume \
    > "$work/said" 2>&1 || { cat "$work/said" >&2; failed=1; }
echo "after $(since) s at its end: begun $(lines "$work/begun"), ended $(lines "$work/ended"), rows $(rows): $(tail -n 1 "$work/said")"
sed -n 's/^{"run":\([0-9]*\),.*/\1/p' "$work"/judged/done/*.rows | sort -n | uniq -c | awk -v judged="$judged" '
    $2 < judged { if ($1 == 1) one++; else several++ }
    END { printf "of %d runs %d have one row, %d none, %d several\n", judged, one, judged - one - several, several
          exit one != judged }' || failed=1
again=$(($(lines "$work/begun") - judged))
echo "begun again, since a kill came before their rows: $again"
[ "$again" -le $((2 * jobs)) ] || failed=1
exit $failed
