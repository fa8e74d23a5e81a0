# As much as a trace may have.

# 64 CPUs that write 15 pages each, and 65536 order lines, of which each lets a CPU take one step. The sum is that of the text that
# tools/replay.py prints.
awk 'BEGIN {
    print "cpus 64"
    print "cap 16"
    print "avail 0 100000"
    for (i = 0; i < 16; i++) print "device", i, 25600, 0, 100
    for (i = 0; i < 16; i++) print "context", i, i, 0
    for (i = 0; i < 64; i++) print "inode", i, i % 16, 15
    for (i = 0; i < 64; i++) print "task", i, i
    for (i = 0; i < 16; i++) print "flusher", i, i, i
    for (i = 0; i < 64; i++) print "write", i, i, 0, 15
    for (i = 0; i < 65536; i++) print "order", i % 64, 1
}' > "$work/in"
"$binary" replay < "$work/in" > "$work/whole" 2> "$work/err"
status=$?
cksum < "$work/whole" > "$work/out"
rm -f "$work/whole"
echo '888376871 302898' > "$work/wanted"
judge "replay: 64 CPUs and 65536 order lines" 0 "$status" "" "$work/wanted"

# 65536 actions and 65536 order lines over 4096 inodes, 256 tasks, 64 flushers and 1024 writers, in the normal form.
awk 'BEGIN {
    print "cpus 64"
    print "cap 1024"
    print "set dirty_ratio 20"
    print "set dirty_background_ratio 10"
    print "set dirty_bytes 0"
    print "set dirty_background_bytes 0"
    for (i = 0; i < 256; i++) print "avail", i * 1000, 1000000 + i
    for (i = 0; i < 16; i++) print "device", i, 1048576, 0, 100
    for (i = 1; i <= 8; i++) print "cgroup", i, 200000, 200000
    for (i = 0; i < 64; i++) print "context", i, i % 16, i % 9
    for (i = 0; i < 4096; i++) print "inode", i, i % 4, 512
    for (i = 0; i < 256; i++) print "task", i, i % 64
    for (i = 0; i < 64; i++) print "flusher", i, i % 16, i
    for (i = 0; i < 65536; i++) print "write", i % 256, (i * 7 + int(i / 256)) % 4096, i % 256, 200 + i % 50
    for (i = 0; i < 65536; i++) print "order", i % 64, 1000000 + i
    print "halt", 1000000
}' > "$work/in"
expect "check: the largest trace" 0 "" "$work/in" check < "$work/in"

# As many of each thing as may be, in the normal form: each may be once more, and is then too many.
awk 'BEGIN {
    print "cpus 1"
    print "cap 1024"
    print "set dirty_ratio 20"
    print "set dirty_background_ratio 10"
    print "set dirty_bytes 0"
    print "set dirty_background_bytes 0"
    for (i = 0; i < 256; i++) print "avail", i, 1000
    for (i = 0; i < 16; i++) print "device", i, 1, 0, 100
    for (i = 0; i < 16; i++) print "strict", i
    for (i = 0; i < 16; i++) print "chunk", i, 2097152
    for (i = 0; i < 16; i++) print "cyclic", i
    for (i = 1; i <= 8; i++) print "cgroup", i, 1, 1
    for (i = 0; i < 64; i++) print "context", i, 0, 0
    for (i = 0; i < 64; i++) print "expire", i, 100000
    for (i = 0; i < 64; i++) print "estimate", i, "1099511627776 1 1"
    for (i = 0; i < 4096; i++) print "inode", i, i % 64, 1
    for (i = 0; i < 256; i++) print "task", i, 0
    for (i = 0; i < 256; i++) print "pace", i, "2097152 1000000000000"
    for (i = 0; i < 64; i++) print "flusher", i, i % 16, 0
    for (i = 0; i < 1024; i++) print "write", i % 256, int(i / 256), 0, 1
}' > "$work/many"
expect "check: as many of each thing as may be" 0 "" "$work/many" check < "$work/many"
for line in 'avail 256 1000' 'device 16 1 0 100' 'cgroup 9 1 1' 'context 64 0 0' 'inode 4096 0 1' 'task 256 0' 'flusher 64 0 0' 'write 0 4 0 1'; do
    { cat "$work/many"; echo "$line"; } > "$work/in"
    expect "check: and $line" 2 "wbsim: line 6223: too many" /dev/null check < "$work/in"
done
{ echo 'cpus 1'; awk 'BEGIN { printf "avail"; for (i = 0; i < 1000000; i++) printf " 0"; print "" }'; } > "$work/in"
refused "a line of a million numbers" "line 2: bad line"
