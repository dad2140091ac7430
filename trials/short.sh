#!/bin/sh
# Files that were cut short, or are longer; and by strace files that are cut short while the program has them open.
. "$(dirname "$(readlink -f "$0")")/lib.sh"

says "create" "created (0)" "$(make f)"
says "insert" "1 ok/order 1 (0)" "$(drive f '1 insert 5 =a/step 1x4')"
for size in 0 1 8191; do
    cp f g && truncate -s $size g
    says "cut to $size bytes" "small 8192 $size (9)" "$(drive g '1 lookup 5/step 1x3')"
    says "it keeps its size" $size "$(stat -c %s g)"
done
for size in 8192 143360 401407; do
    cp f g && truncate -s $size g
    before=$(cksum <g)
    says "cut to $size bytes" "small 401408 $size (9)" "$(drive g '1 lookup 5/step 1x3')"
    says "it is as it was" "$before" "$(cksum <g)"
done
cp f g && printf 'more' >>g
says "four bytes longer" "1 found =a/order 1 (0)" "$(drive g '1 lookup 5/step 1x3')"
says "they are there" "more" "$(tail -c 4 g)"

strace -o trace true 2>/dev/null || { echo "no strace can be used here"; exit 2; }
# a file of eight pages: each third insert splits the page of records that has the greatest points
awk 'BEGIN { for (i = 1; i <= 27; i++) print "1 insert", i, "="; for (i = 1; i <= 27; i++) print "step 1x9 px9" }' >text
make new >/dev/null
says "27 inserts" 27 "$("$HBPI" new drive <text | grep -c ok)"
printf '1 insert 0 =a\n1 lookup 27\nstep 1x5 fx3 1x9\n' >commands

# number CALL PATTERN: which call of that name on f is the first that looks so, behind the first read of the text
number() {
    cp new f
    strace -y -o trace -e trace="read,$1" "$HBPI" f drive <commands >out
    awk -v call="^$1" -v pattern="$2" '$0 ~ call { n++ } /^read\(0</ { run = 1 } run && $0 ~ call && $0 ~ pattern { print n; exit }' trace
}

# cut CALL NUMBER SIZE: the program is stopped behind this call, the file is cut, and the program goes on
cut() {
    cp new f
    : >trace
    strace -o trace -e trace="$1" -e inject="$1:signal=STOP:when=$2" "$HBPI" f drive <commands >out 2>told &
    tracer=$!
    for _ in $(seq 200); do
        grep -q 'stopped by SIGSTOP' trace && break
        sleep 0.05
    done
    truncate -s "$3" f
    for child in $(pgrep -P $tracer); do kill -CONT "$child"; done
    wait $tracer
    status=$?
    printf '%s (%d)' "$(tr '\n' '/' <out)" $status
}
reading=$(number read '^read.0<')
says "cut to the first page before the steps: what is read behind it is a fault" "1 read fault/2 read fault/order/disk fault/ (6)" "$(cut read "$reading" 143360)"
says "the next opening" "small 401408 143360 (9)" "$(drive f '')"
# The pages that are in memory are used on, and a write makes the file longer: the point 0 is in page 2, which ends at 147456.
went_on="1 ok/2 read fault/order 1/disk fault/ (6)"
forcing=$(number pwrite64 /f)
says "cut to the first page as the log is written" "$went_on" "$(cut pwrite64 "$forcing" 143360)"
says "the next opening: the page stands in its place" "small 401408 147456 (9)" "$(drive f '')"
says "cut to the superblocks as the log is written" "$went_on" "$(cut pwrite64 "$forcing" 8192)"
says "the next opening" "small 401408 147456 (9)" "$(drive f '')"
says "cut to the superblocks once a switch has zeroed the other area" "$went_on" "$(cut pwrite64 "$(number pwrite64 ', 65536, ')" 8192)"
says "the next opening" "small 401408 8192 (9)" "$(drive f '')"
exit $bad
