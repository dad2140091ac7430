#!/bin/sh
# A process that is killed while it drives 4,000 inserts from four sessions, with the poster, the flusher and the smallest
# log, whose turn ends 333 times, at 200 moments of its time (or as many as the first word says). Each line whose reply was
# written has to be in the file with its body, of each session's lines those in front have to be there, and no file may be
# refused. (A killed process loses nothing that the system has taken. This is no power cut, so the file stands in memory,
# where it is quick.)
[ -d /dev/shm ] && export TMPDIR=/dev/shm
. "$(dirname "$(readlink -f "$0")")/lib.sh"

moments=${1:-200}
# line N inserts a point of its own with the body N, and the lookup of line N asks for it
awk 'BEGIN { for (i = 1; i <= 4000; i++) print (i % 4) + 1, "insert", i * 7919 % 10007, "=" i
    for (i = 1; i <= 10000; i++) print "step 1x2 2x2 p 3x2 4 p 1 2x3 3 4x2 p" (i % 8 ? "" : " f") }' >long
awk 'BEGIN { for (i = 1; i <= 4000; i++) print (i % 16) + 1, "lookup", i * 7919 % 10007
    for (i = 1; i <= 16; i++) print "step " i "x2500" }' >ask

# The file is made anew, and the run is killed after so many seconds. What is left is compared with what it wrote.
try() {
    rm -f f
    # a process that is killed at once hasn't emptied this itself
    : >out
    "$HBPI" f create 1 2400 65536 6 32 >/dev/null
    "$HBPI" f drive <long >out 2>/dev/null &
    sleep "$1"
    # only a process that was waited for has let go of the file's lock
    kill -KILL $! 2>/dev/null
    wait $! 2>/dev/null
    status=$?
    "$HBPI" f drive <ask >left || { echo "BAD  after $1 s: $(tail -n 1 left)"; bad=1; return; }
    awk -v delay="$1" -v status="$status" 'FILENAME == "out" { if ($2 == "ok") { answered[$1] = 1; replies++ } else if ($1 != "order") wrong++; next }
        $2 == "found" { there[$1] = 1; count++; if ($3 != "=" $1) wrong++ }
        $2 != "found" && $2 != "none" && $1 != "order" { wrong++ }
        END {
            for (line in answered) if (!(line in there)) lost++
            for (line in there) if (line > 4 && !((line - 4) in there)) torn++
            word = lost + torn + wrong ? "BAD " : "ok  "
            printf "%s killed after %s s (status %s): %d replies written, %d records, %d lost, %d out of sequence, %d wrong\n", word, delay, status, replies, count, lost, torn, wrong
        }' out left
}

begun=$(date +%s%N)
"$HBPI" f create 1 2400 65536 6 32 >/dev/null
"$HBPI" f drive <long >out
taken=$((($(date +%s%N) - begun) / 1000000))
: >told
killed=0
moment=0
# a run that was done before its moment doesn't count
while [ "$killed" -lt "$moments" ] && [ "$moment" -lt $((4 * moments)) ]; do
    moment=$((moment + 1))
    try "$(awk -v all="$taken" -v i="$moment" -v n="$moments" 'BEGIN { printf "%.4f", all / 1000 * (i % n + 1) / n }')" >>told
    [ "$status" = 137 ] && killed=$((killed + 1))
done
cat told
grep -q '^BAD' told && bad=1
echo "$killed were killed"
exit $bad
