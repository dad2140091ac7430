#!/bin/sh
# Each read, write and sync of a drive fails in its turn, by strace, with an error; among them are those of a page that is
# written to its place and of a switch of the log's turn. What was answered before has to be there at the next opening, and
# the line that waited may be.
. "$(dirname "$(readlink -f "$0")")/lib.sh"

strace -o trace true 2>/dev/null || { echo "no strace can be used here"; exit 2; }

make new >/dev/null
drive new '1 insert 5 =a/step 1x4' >/dev/null
# behind the insert's answer the flusher writes the page, begins the next turn, and has nothing left to do
printf '1 insert 6 =b\n1 lookup 5\n1 lookup 6\nstep 1x4 fx3 1x6\n' >commands

# The drive under the options of strace.
try() {
    cp new f
    call strace -y -o trace -e trace=pread64,pwrite64,fdatasync,read,write "$@" "$HBPI" f drive <commands
}

says "drive" "1 ok/2 found =a/3 found =b/order 1 2 3 (0)" "$(try)"
# each call on the file, as its name, which one of that name it is, and whether it comes behind the opening, and behind the force.
# The reads of a whole log area only look whether it has its zeros already: where one fails, they are written
awk -F'(' '{ n[$1]++ } /^read\(0</ { place = "run" } /\/f>/ { print $1, n[$1], /^pread64.*, 65536, [0-9]+\) / ? "zeroing" : place ? place : "opening"
    if (place && $1 == "fdatasync" && ++synced == 2) place = "flush" }' trace >calls
says "writes and syncs behind the force" "5 5" "$(grep -c 'pwrite64.*flush' calls) $(grep -c 'fdatasync.*flush' calls)"
while read -r name number place; do
    got=$(try -e inject="$name:error=EIO:when=$number")
    behind=$(sed '1,/INJECTED/d' trace | grep -c '^[pf].*/f>')
    case $place,$name in
    zeroing,*) want="1 ok/2 found =a/3 found =b/order 1 2 3 (0), then $behind 0" ;;
    opening,*) want="disk fault (6), then 0 1" ;;
    run,pread64) want="1 read fault/2 found =a/3 none/order 2 3/disk fault (6), then $behind 1" ;;
    run,*) want="1 unanswered/2 unanswered/3 unanswered/order | 1/disk fault (6), then 0 1" ;;
    flush,*) want="1 ok/2 unanswered/3 unanswered/order 1/disk fault (6), then 0 1" ;;
    esac
    says "$name $number fails, in the $place" "$want" "$got, then $behind $(grep -c '^hbpi: "f": a ' told)"
    left=$(drive f '1 lookup 5/1 lookup 6/step 1x6')
    case $place,$left in
    "run,1 found =a/2 found =b/order 1 2 (0)") want=$left ;;
    flush,* | zeroing,*) want="1 found =a/2 found =b/order 1 2 (0)" ;;
    *) want="1 found =a/2 none/order 1 2 (0)" ;;
    esac
    says "the next opening" "$want" "$left"
done <<END
$(cat calls)
END
# a process that is killed at one of these calls loses nothing that was answered
while read -r name number place; do
    [ "$place" = flush ] || continue
    try -e inject="$name:signal=KILL:when=$number" >/dev/null 2>&1
    says "killed at $name $number" "1 found =a/2 found =b/order 1 2 (0)" "$(drive f '1 lookup 5/1 lookup 6/step 1x6')"
done <<END
$(cat calls)
END
# an interrupted call is made again, and one that moves no byte is a failed one
while read -r name number place; do
    [ "$name" = fdatasync ] && continue
    says "$name $number is interrupted" "1 ok/2 found =a/3 found =b/order 1 2 3 (0)" "$(try -e inject="$name:error=EINTR:when=$number")"
    says "$name $number moves nothing" "$([ "$place" = zeroing ] && echo 0 || echo 6)" "$(try -e inject="$name:retval=0:when=$number" >got; sed 's/.*(//; s/).*//' got)"
done <<END
$(cat calls)
END
exit $bad
