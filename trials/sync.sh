#!/bin/sh
# Each sync of a run fails in its turn, by strace, also in a switch of the log's turn. The run stops there: no later call on
# the file is made.
. "$(dirname "$(readlink -f "$0")")/lib.sh"

strace -o trace true 2>/dev/null || { echo "no strace can be used here"; exit 2; }

# The run whose sync of this number fails, and how many writes and syncs of the file come behind that.
stopped() {
    cp new f
    printf '1 insert 5 =a\n1 lookup 5\nstep 1x4 fx3 1x3\n' >text
    out=$(strace -y -o trace -e trace=write,fdatasync -e inject=fdatasync:error=EIO:when="$1" "$HBPI" f drive <text 2>told)
    printf '%s (%d), then %d' "$(printf '%s' "$out" | tr '\n' '/')" $? \
        "$(sed '1,/INJECTED/d' trace | grep -c '/f>')"
}

"$HBPI" new create 1 64 65536 6 32 >/dev/null
# an opening has six syncs, the force of the insert two, and a switch five
for number in 1 2 3 4 5 6; do
    says "sync $number, in the opening" "disk fault (6), then 0" "$(stopped $number)"
    says "the file opens again" "1 none/order 1 (0)" "$(drive f '1 lookup 5/step 1x3')"
done
for number in 7 8; do
    says "sync $number, in the force" "1 unanswered/2 unanswered/order | 1/disk fault (6), then 0" "$(stopped $number)"
done
for number in 9 10 11 12 13; do
    says "sync $number, in the switch" "1 ok/2 unanswered/order 1/disk fault (6), then 0" "$(stopped $number)"
    says "what was answered is there" "1 found =a/order 1 (0)" "$(drive f '1 lookup 5/step 1x3')"
done
says "no other one is asked for" "1 ok/2 found =a/order 1 2 (0), then 0" "$(stopped 14)"
exit $bad
