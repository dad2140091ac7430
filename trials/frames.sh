#!/bin/sh
# A file of 300 pages, of which 128 are in memory at most. Which page is read when, and which is written to its place, was worked out by
# hand from the order of use. The pages 1 to 297 are leaves, 298 names 1 to 149, 299 names 150 to 297, and 300 is the root. A walk uses the
# root, one of these two, and a leaf; so beside those there is room for 126 leaves.
here=$(dirname "$(readlink -f "$0")")
. "$here/lib.sh"

strace -o trace true 2>/dev/null || { echo "no strace can be used here"; exit 2; }
python3 "$here/frames/laying.py" lay new 297 149 5

# A line for each leaf: of a record that is there, of one that isn't yet, and an insert of that.
asks() { for leaf; do echo "1 lookup $((1000 * leaf - 1000))"; done; }
asks_new() { for leaf; do echo "1 lookup $((1000 * leaf - 999))"; done; }
puts() { for leaf; do echo "1 insert $((1000 * leaf - 999)) =new"; done; }

# The pages that a drive of the file f read behind its opening, and with a w those that it wrote. The log isn't told. Page p stands at
# 2,105,344 + 4,096 (p - 1).
pages() {
    awk '/^[0-9 ]*read\(0</ { run = 1 } run && /p(read|write)64\(.*\/f>/ {
        n = split($0, part, ", "); at = part[n]; sub(/\).*/, "", at)
        if (at >= 2105344) printf "%s%d ", /pwrite/ ? "w" : "", (at - 2105344) / 4096 + 1 }' trace
}

# How often each reply came, how long the order is, and what stands behind it.
replies() {
    awk '$1 == "order" { print "order", NF - 1; next } $1 !~ /^[0-9]+$/ { print; next } { count[$2]++ }
        END { for (word in count) print word, count[word] }' "$1" | sort | tr '\n' '/'
}

# row NAME PAGES REPLIES: what the text does to the file, which pages it reads and writes, and what is replied.
row() {
    cp new f
    echo "step 1x9000" >>text
    strace -y -o trace -e trace=pread64,pwrite64,read "$HBPI" f drive <text >out 2>told
    got=$(pages)
    if [ "$(echo $got)" = "$(echo $2)" ]; then
        says "$1" "$3" "$(replies out)"
    else
        says "$1" "$(echo $2)" "$(echo $got)"
    fi
}

forward="300 298 $(seq 1 149) 299 $(seq 150 297)"
asks $(seq 1 297) >text
row "each leaf once: each page is read once" "$forward" "found 297/order 297/"
# before its second round the 126 leaves from 172 on are in memory, and they go one by one before it comes to them; so does 299
asks $(seq 1 297) $(seq 1 297) >text
row "each leaf in turn, twice: all but the root is read again" "$forward 298 $(seq 1 149) 299 $(seq 150 297)" "found 594/order 594/"
asks $(seq 1 297) $(seq 297 -1 1) >text
row "there and back: the last 126 leaves aren't read again" "$forward $(seq 171 -1 150) 298 $(seq 149 -1 1)" "found 594/order 594/"
asks $(seq 1 126) $(seq 1 126) $(seq 126 -1 1) >text
row "126 leaves have room" "300 298 $(seq 1 126)" "found 378/order 378/"
asks $(seq 1 127) $(seq 1 127) >text
row "127 leaves don't: each goes just before it is asked for" "300 298 $(seq 1 127) $(seq 1 127)" "found 254/order 254/"
asks $(seq 1 126) 1 127 1 2 3 >text
row "a leaf that was used again stays, and the one behind it goes" "300 298 $(seq 1 126) 127 2 3" "found 131/order 131/"
asks $(seq 1 126) 150 1 126 >text
row "a walk by the other page lets two go" "300 298 $(seq 1 126) 299 150 1" "found 129/order 129/"

# a page that was changed stays until it was written to its place
{ asks 5; asks $(seq 1 149) 5; } >text
row "a leaf that was read goes, and is read again" "300 298 5 $(seq 1 4) $(seq 6 149) 5" "found 151/order 151/"
{ puts 5; asks $(seq 1 149); asks_new 5; } >text
row "one that was changed stays" "300 298 5 $(seq 1 4) $(seq 6 149)" "found 150/ok 1/order 151/"
# An insert needs three places. At the n-th one n - 1 leaves are dirty, and the page above is pinned: so 128 - n are left, and from the
# 126th on the least recently used leaf is written first. Leaf 1 goes as 127 comes, since all frames are in use then.
puts $(seq 1 125) >text
row "125 inserts write no page" "300 298 $(seq 1 125)" "ok 125/order 125/"
homes=""
for leaf in $(seq 126 149); do homes="$homes w$((leaf - 125)) $leaf"; done
puts $(seq 1 149) >text
row "149 inserts write the leaves 1 to 24" "300 298 $(seq 1 125) $homes" "ok 149/order 149/"
# 24 to 149 are in memory then; 24 is clean, and so it goes as 1 comes, and 1 as 24 comes
{ puts $(seq 1 149); asks_new 24 1 24 149 25; } >text
row "a leaf that was written and left comes back as it was" "300 298 $(seq 1 125) $homes 1 24" "found 5/ok 149/order 154/"

# kept NAME: the file opens, and has the first 125 inserts
kept() {
    { asks_new $(seq 1 125); echo "step 1x9000"; } >text
    "$HBPI" f drive <text >out 2>told
    says "$1" "found 125/order 125/" "$(replies out)"
}

# place NAME LEAF: which call of that name on the file f is the last one on a leaf's place
place() {
    cp new f
    strace -y -o trace -e trace="$1" "$HBPI" f drive <text >/dev/null
    grep "^$1" trace | grep -n ", 4096, $((2101248 + 4096 * $2))) = 4096" | tail -n 1 | cut -d: -f1
    cp new f
}

# killed: the process is killed as it writes leaf 1, behind 125 inserts whose log is synced
killed() {
    { puts $(seq 1 149); echo "step 1x9000"; } >text
    call strace -o trace -e trace=pwrite64 -e inject=pwrite64:signal=KILL:when="$(place pwrite64 1)" "$HBPI" f drive <text
}
says "killed as leaf 1 is written" " (137)" "$(killed 2>/dev/null)"
kept "the next opening"
for kind in zeros free level box order heavy attributes body; do
    killed >/dev/null 2>&1
    python3 "$here/frames/laying.py" spoil f 1 $kind
    kept "the same, and in the place of leaf 1 stands: $kind"
done

# met KIND LEAF WANT: the program is stopped as it reads leaf 149, behind the leaves 1 to 148; other bytes are put into the place of a
# leaf; then the program goes on, and asks for that leaf.
met() {
    { asks $(seq 1 149) "$2"; echo "step 1x9000"; } >text
    turn=$(place pread64 149)
    strace -o trace -e trace=pread64 -e inject=pread64:signal=STOP:when="$turn" "$HBPI" f drive <text >out 2>told &
    tracer=$!
    for _ in $(seq 200); do
        grep -q 'stopped by SIGSTOP' trace && break
        sleep 0.05
    done
    python3 "$here/frames/laying.py" spoil f "$2" "$1"
    for child in $(pgrep -P $tracer); do kill -CONT "$child"; done
    wait $tracer
    status=$?
    says "$1 in leaf $2 meanwhile" "$3" "$(replies out) ($status)"
}
stopped="found 149/order 149/unanswered 1/ (7)"
met zeros 1 "damaged 1 S0/$stopped"
says "the next opening" "damaged 1 S0 (7)" "$(drive f '1 lookup 0/step 1x9')"
met free 1 "damaged 1 S2/$stopped"
met attributes 1 "damaged 1 S3/$stopped"
met heavy 1 "damaged 1 S5/$stopped"
met order 1 "damaged 1 S6/$stopped"
met level 1 "damaged 1 level/$stopped"
met box 1 "damaged 1 extent/$stopped"
met body 1 "found 150/order 150/ (0)"
# leaf 24 is the first of the 126 that are in memory then, and 23 the last of those that left
met zeros 24 "found 150/order 150/ (0)"
met zeros 23 "damaged 23 S0/$stopped"
exit $bad
