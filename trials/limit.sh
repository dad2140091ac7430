#!/bin/sh
# A limit on the size of files.
. "$(dirname "$(readlink -f "$0")")/lib.sh"

# A call under a limit of so many blocks of 512 bytes, whose signal is ignored.
under() {
    blocks=$1
    shift
    (trap '' XFSZ; ulimit -f "$blocks"; call "$@")
}

says "create under a limit" "disk fault (6)" "$(under 100 "$HBPI" f create 1 64 65536 6 32 </dev/null)"
hears "told" "hbpi: \"f\": can't be given its size: File too large (os error 27)/"
says "what it leaves" "told" "$(ls)"
{ (ulimit -f 100; "$HBPI" f create 1 64 65536 6 32 >out 2>&1); } 2>/dev/null
says "with the signal the process is ended" "153 " "$? $(cat out)"
says "what it leaves" ".hbpi-new-# out told" "$(ls -A | sed 's/new-.*/new-#/' | tr '\n' ' ' | sed 's/ $//')"
says "a second create" "created (0)" "$(make f)"
rm .hbpi-new-*
says "insert" "1 ok/order 1 (0)" "$(drive f '1 insert 5 =a/step 1x4')"
before=$(cksum <f)
printf '1 insert 6 =b\n1 lookup 5\nstep 1x7\n' >change
says "the page can't be written, in the opening" "disk fault (6)" "$(under 200 "$HBPI" f drive <change)"
hears "told" "hbpi: \"f\": a write failed: File too large (os error 27)/"
says "the file is as it was" "$before" "$(cksum <f)"
says "a lookup" "1 found =a/order 1 (0)" "$(drive f '1 lookup 5/step 1x3')"
# this opening zeroes area 0, at the bytes 8192 to 73728
says "the log area can't be zeroed, in the opening" "disk fault (6)" "$(under 100 "$HBPI" f drive <change)"
hears "told" "hbpi: \"f\": a write failed: File too large (os error 27)/"
says "a lookup" "1 found =a/order 1 (0)" "$(drive f '1 lookup 5/step 1x3')"
# a file whose blocks are all there and whose areas are zero: the opening writes but a superblock
make new >/dev/null
cat new >whole
says "the log can't be written, in the force" "1 unanswered/2 unanswered/order | 1/disk fault (6)" \
    "$(under 16 "$HBPI" whole drive <change)"
hears "told" "hbpi: \"whole\": a write failed: File too large (os error 27)/"
says "the file opens" "1 none/order 1 (0)" "$(drive whole '1 lookup 6/step 1x3')"
exit $bad
