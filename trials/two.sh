#!/bin/sh
# Two programs on one file. The first one is kept by its input, a pipe that isn't closed yet; and it is stopped while the
# second one runs, so that what changes is the second one's doing.
. "$(dirname "$(readlink -f "$0")")/lib.sh"

# Whether somebody has a lock on the file f.
is_locked() {
    grep -q "FLOCK.*:$(stat -c %i f) " /proc/locks
}

# Starts a program that drives f by what comes through descriptor 3, waits until it has the file, and stops it.
hold() {
    "$HBPI" f drive <input >out 3>&- &
    first=$!
    exec 3>input
    for _ in 1 2 3 4 5 6 7 8 9 10; do is_locked && break; sleep 0.1; done
    sleep 0.3
    kill -STOP $first
}

mkfifo input
says "create" "created (0)" "$(make f)"
is_locked && says "a lock is left by a program that ended" no yes
hold
is_locked || says "the first program has a lock" yes no
before=$(cksum <f)
says "drive by a second program" "disk fault (6)" "$(drive f '1 insert 6 =b/step 1x4')"
says "create by a second program" "disk fault (6)" "$(make f)"
says "map of it" "disk fault (6)" "$(call "$HBPI" f map </dev/null)"
says "check" "disk fault (6)" "$(call "$HBPI" f check </dev/null)"
ln f other
says "drive by another name of the file" "disk fault (6)" "$(drive other '1 insert 6 =b/step 1x4')"
says "the file is as it was" "$before" "$(cksum <f)"
says "another file" "created (0)" "$(make g)"
kill -CONT $first
printf '1 insert 5 =a\n1 lookup 6\nstep 1x7\n' >&3
exec 3>&-
wait $first
says "the first program goes on" "1 ok/2 none/order 1 2/ (0)" "$(tr '\n' '/' <out) ($?)"
says "and then the file is free" "1 found =a/2 none/order 1 2 (0)" "$(drive f '1 lookup 5/1 lookup 6/step 1x6')"
hold
kill -KILL $first
exec 3>&-
wait $first 2>/dev/null
says "a program that was killed leaves no lock" "1 found =a/order 1 (0)" "$(drive f '1 lookup 5/step 1x3')"
exit $bad
