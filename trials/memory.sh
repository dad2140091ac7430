#!/bin/sh
# Limits on memory.
. "$(dirname "$(readlink -f "$0")")/lib.sh"

# under KB FILE WORDS..: a run with so many kilobytes of memory; its text is the file text, its output the file out
under() {
    kilobytes=$1
    shift
    (ulimit -v "$kilobytes"; exec "$HBPI" "$@" <text >out 2>err)
}

# least FILE WORDS..: the least limit in kilobytes, to 64, under which the output is that of the file full
least() {
    low=1000 high=4000000
    while [ $((high - low)) -gt 64 ]; do
        middle=$(((low + high) / 2))
        if under $middle "$@" && cmp -s out full; then high=$middle; else low=$middle; fi
    done
    echo $high
}

# fits NAME NEED FILE WORDS..: above what an empty text takes, the least limit is at most five quarters of the need, in
# bytes. The count is a power of two, so that lists that grow by doubling have no free places.
fits() {
    name=$1 need=$(($2 / 1024))
    shift 2
    "$HBPI" "$@" <text >full || says "$name" 0 "$?"
    took=$(($(least "$@") - base))
    echo "     $name: needs $need KB, takes $took"
    says "$name" "within five quarters" "$([ $took -le $((need * 5 / 4)) ] && echo within five quarters)"
}

: >text
"$HBPI" - dry 1 <text >full
base=$(least - dry 1)
count=131072

# A record has 80 bytes: four values, a body of 32, two lengths. A line has 96, a reply 48 and a place in the order 4.
size() { wc -c <"$1"; }
awk -v n=$count 'BEGIN { for (i = 0; i < n; i++) print "1 lookup " i }' >text
"$HBPI" - dry 1 <text >full
fits "$count lookups" $(($(size text) + $(size full) + count * 148)) - dry 1
awk -v n=$count 'BEGIN { for (i = 0; i < n; i++) print "1 insert " i " =" i }' >text
"$HBPI" - dry 1 <text >full
fits "$count inserts" $(($(size text) + $(size full) + count * 228)) - dry 1
cp text inserts
for line in 1 2 3 4 5 6 7 8; do echo "1 search 0 18446744073709551615" >>text; done
"$HBPI" - dry 1 <text >full
fits "$count inserts and 8 searches" $(($(size text) + $(size full) + count * (228 + 8 * 80))) - dry 1

# A log area isn't read as a whole: a file with the longest one opens with 1,024 KB more than an empty text takes
make f 1 1 67108864 6 32 >/dev/null
"$HBPI" f create 1 1 67108864 6 32 >/dev/null
printf '1 insert 1 =\n1 lookup 1\nstep 1x9\n' >text
under $((base + 1024)) f drive
says "drive with the longest log areas" "0 1 ok/2 found =/order 1 2/" "$? $(tr '\n' '/' <out)"

# told: of the lines of the file out each is ok or no memory, and the order has those that are ok
told() {
    awk '$1 == "order" { for (i = 2; i <= NF; i++) if (!ok[$i]--) bad++; ended++; next }
        $2 == "ok" { ok[$1] = 1; oks++; next }
        $2 == "no" && $3 == "memory" && NF == 3 { refused++; next }
        { bad++ }
        END { exit !(ended == 1 && !bad && oks + refused == NR - 1) }' out
}

# kept FILE: without a limit, the file has the records of the lines that are ok in the file out, and no others
kept() {
    "$HBPI" "$1" drive <lookups >found || return 1
    awk 'NR == FNR { if ($2 == "ok") ok[$1] = 1; next }
        $1 != "order" && ok[$1] != ($2 == "found") { bad++ }
        END { exit bad > 0 }' out found
}

# refuses NAME LEAST MOST STEP FILE WORDS..: under each limit between, the status is 8 and the output no memory, or
# each line is answered, and some as no memory
refuses() {
    name=$1 at=$2 most=$3 step=$4 eights=0 some=0 wrong=0
    shift 4
    while [ $at -le $most ]; do
        [ "$2" = drive ] && cp empty "$1"
        under $at "$@"
        status=$?
        if [ $status = 8 ] && [ "$(cat out)" = "no memory" ] && [ ! -s err ]; then eights=$((eights + 1))
        elif [ $status = 0 ] && told && [ ! -s err ]; then grep -q 'no memory' out && some=$((some + 1))
        else wrong=$((wrong + 1)); echo "     $at: status $status, $(head -c 60 out | tr '\n' '/') $(head -c 60 err)"; fi
        [ "$2" != drive ] || kept "$1" || { wrong=$((wrong + 1)); echo "     $at: the file has other records"; }
        at=$((at + step))
    done
    echo "     $name: $eights with status 8, $some with replies no memory"
    says "$name" "0 others" "$wrong others"
}

cp inserts text
refuses "$count inserts under limits" $((base + 64)) 60000 1000 - dry 1
head -n 2000 inserts >text
awk 'BEGIN { for (i = 0; i < 2000; i++) print "step 1x12 px20" }' >>text
awk 'BEGIN { for (i = 0; i < 2000; i++) print "1 lookup " i; print "step 1x100000" }' >lookups
"$HBPI" empty create 1 4096 8388608 6 32 >/dev/null
refuses "2,000 inserts into a file under limits" $((base + 64)) $((base + 4000)) 80 f drive
exit $bad
