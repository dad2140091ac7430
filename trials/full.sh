#!/bin/sh
# A disk without room. It wants the right to mount a tmpfs.
. "$(dirname "$(readlink -f "$0")")/lib.sh"

# Fills the rest of the disk.
fill() {
    head -c 400000 /dev/zero >small/rest 2>/dev/null
    says "the disk is full" 0 "$(stat -f -c %a small)"
}

mkdir small
trap 'umount small 2>/dev/null; rm -rf "$room"' EXIT
mount -t tmpfs -o size=64k none small || { echo "no tmpfs can be mounted here"; exit 2; }
says "create on 64 KiB" "disk fault (6)" "$(make small/f)"
hears "told" "hbpi: \"small/f\": can't be given its size: No space left on device (os error 28)/"
says "what it leaves" "" "$(ls -A small)"
umount small
mount -t tmpfs -o size=400k none small
says "create on 400 KiB" "created (0)" "$(make small/f)"
says "its blocks of 512 bytes: all" 784 "$(stat -c %b small/f)"
fill
says "an opening" "order (0)" "$(drive small/f '')"
awk 'BEGIN { for (i = 1; i <= 100; i++) print "1", i % 2 ? "insert 5 =a" : "delete 5"; for (i = 1; i <= 100; i++) print "step 1x4 fx3" }' >text
says "100 changes and 100 turns of the log want no block" "100 0" "$("$HBPI" small/f drive <text >out; status=$?; echo "$(grep -c ok out) $status")"
says "nor does the next opening, which writes the root" "1 none/order 1 (0)" "$(drive small/f '1 lookup 5/step 1x3')"
# the seventh insert splits the root
lines='1 insert 1 =/1 insert 2 =/1 insert 3 =/1 insert 4 =/1 insert 5 =/1 insert 6 =/1 insert 7 =/1 insert 8 =/step'
steps='1x4 fx3 1x4 fx3 1x4 fx3 1x4 fx3 1x4 fx3 1x4 fx3 1x6 fx3 1x9'
says "nor does a new page" "1 ok/2 ok/3 ok/4 ok/5 ok/6 ok/7 ok/8 ok/order 1 2 3 4 5 6 7 8 (0)" "$(drive small/f "$lines $steps")"
says "and it is there" "1 found =/2 found =/order 1 2 (0)" "$(drive small/f '1 lookup 1/1 lookup 8/step 1x12')"
umount small

# a copy that leaves zeros out: its blocks come when they are written
says "create" "created (0)" "$(make whole)"
mount -t tmpfs -o size=100k none small
cp --sparse=always whole small/f
says "a copy without zeros: an opening has room for a log area" "order (0)" "$(drive small/f '')"
says "the next one has none for the other" "disk fault (6)" "$(drive small/f '1 insert 5 =a/step 1x4')"
hears "told" "hbpi: \"small/f\": a write failed: No space left on device (os error 28)/"
mount -o remount,size=200k small
says "with more room" "1 ok/order 1 (0)" "$(drive small/f '1 insert 5 =a/step 1x4')"
says "it is there" "1 found =a/order 1 (0)" "$(drive small/f '1 lookup 5/step 1x3')"
rm small/f
cp --sparse=always whole small/f
says "a first opening" "order (0)" "$(drive small/f '')"
says "a second one" "order (0)" "$(drive small/f '')"
fill
says "the flusher finds no block for the new page" "1 ok/2 ok/3 ok/4 ok/5 ok/6 ok/7 ok/8 unanswered/order 1 2 3 4 5 6 7/disk fault (6)" \
    "$(drive small/f "$lines $steps")"
hears "told" "hbpi: \"small/f\": a write failed: No space left on device (os error 28)/"
says "the next opening has none for it, either" "disk fault (6)" "$(drive small/f '')"
rm small/rest
says "with more room what was answered is there" "1 found =/2 found =/3 none/order 1 2 3 (0)" "$(drive small/f '1 lookup 1/1 lookup 7/1 lookup 8/step 1x12')"
umount small
exit $bad
