#!/bin/sh
# A search during which memory is refused: each allocation of a run in turn, by a library in front of the C library.
here=$(dirname "$(readlink -f "$0")")
. "$here/lib.sh"
cc -O1 -shared -fPIC -fno-builtin -o refuse.so "$here/schedules/refuse.c" || exit 2

# Eleven records on three pages, which lie in holes of one another
make f >told
for points in "10 20 30 40 50 60 70" "1 2 3 4"; do
    { for point in $points; do echo "1 insert $point =b$point"; done; echo "step 1x60"; } >text
    "$HBPI" f drive <text >told
done
mv f whole
printf '1 search 0 100\n1 lookup 10\nstep 1x40\n' >text
{
    echo "1 box 11"
    for point in 1 2 3 4 10 20 30 40 50 60 70; do echo "+ $point =b$point"; done
    printf '2 found =b10\norder 1 2\n'
} >full

# under N: a run whose allocation of number N is refused, and none where N is 0
under() {
    cp whole f
    REFUSE=$1 REFUSE_TOLD=said LD_PRELOAD=$room/refuse.so "$HBPI" f drive <text >out 2>err
}

under 0
says "a search that finds all" "0 same" "$? $(cmp -s out full && echo same)"
count=$(cat said) at=1 eights=0 some=0 wrong=0 lost=0
while [ "$at" -le "$count" ]; do
    under $at
    case "$? $(tr '\n' '/' <out)$(cat err)" in
        "8 no memory/") eights=$((eights + 1)) ;;
        "0 1 no memory/2 found =b10/order 2/") some=$((some + 1)) ;;
        *) wrong=$((wrong + 1)); echo "     allocation $at: $(head -c 80 out | tr '\n' '/') $(head -c 60 err)" ;;
    esac
    "$HBPI" f drive <text | cmp -s - full || lost=$((lost + 1))
    at=$((at + 1))
done
echo "     $count allocations: $eights with status 8 and nothing done, $some in which the search alone is answered no memory"
says "no other ends, and no record lost" "0 0" "$wrong $lost"
says "searches without memory" "some" "$([ $some -gt 9 ] && echo some)"
exit $bad
