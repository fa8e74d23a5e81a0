# Runs over threads where the machine gives no thread, or too few of them.

# A limit of processes holds for no root, so root takes another user's part. The program is copied to where that user finds it.
limited() {
    if [ "$(id -u)" -eq 0 ]; then
        timeout 30 setpriv --reuid 65534 --clear-groups prlimit --nproc="$1" "$work/program" $2
    else
        timeout 30 prlimit --nproc="$1" "$work/program" $2
    fi
}
chmod 711 "$work" && cp "$binary" "$work/program" && chmod 755 "$work/program"
limited 1 no-command > "$work/out" 2> "$work/err"
if [ $? -eq 1 ]; then
    for processes in 1 2 3; do
        echo 'bulk 1000 dirtied 1000 cleaned 1000 left 0' > "$work/wanted"
        limited $processes 'bulk 1000' > "$work/out" 2> "$work/err" < /dev/null
        judge "bulk 1000: at most $processes processes" 0 $? "" "$work/wanted"
        for trace in 'two-pages 2 2' 'two-cpus 2 2' 'two-disks 22 22'; do
            printf '%s\n' 'census 0 0' "totals ${trace#* }" 'end done' > "$work/wanted"
            limited $processes run > "$work/whole" 2> "$work/err" < "$root/examples/${trace%% *}.trace"
            status=$?
            tail -n 3 "$work/whole" > "$work/out"
            judge "run: ${trace%% *}.trace: at most $processes processes" 0 "$status" "" "$work/wanted"
        done
    done
    rm -f "$work/whole"
else
    skip "runs with few processes" "no prlimit or setpriv here, or the program isn't found by another user"
fi
rm -f "$work/program"
