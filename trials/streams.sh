#!/bin/sh
# Standard streams that are closed or full. No file that the program opens may take the number of one of them.
. "$(dirname "$(readlink -f "$0")")/lib.sh"

text='1 insert 5 =a/step 1x4'
printf '%s/' "$text" | tr '/' '\n' >insert
says "create" "created (0)" "$(make new)"
"$HBPI" new drive <insert >/dev/null
"$HBPI" f create 1 64 65536 6 32 <&-
says "create without an input" 0 $?
says "the file" "1 none/order 1 (0)" "$(drive f '1 lookup 5/step 1x3')"
"$HBPI" g create 1 64 65536 6 32 >&-
says "create without an output" 5 $?
says "the file" "1 none/order 1 (0)" "$(drive g '1 lookup 5/step 1x3')"
"$HBPI" h create 1 64 65536 6 32 2>&-
says "create without a second output" 0 $?
says "the file" "1 none/order 1 (0)" "$(drive h '1 lookup 5/step 1x3')"
"$HBPI" i create 1 64 65536 6 32 <&- >&- 2>&-
says "create without any stream" 5 $?
says "the file" "1 none/order 1 (0)" "$(drive i '1 lookup 5/step 1x3')"
cp f g
says "drive without an input" "source fault (4)" "$(call "$HBPI" g drive <&-)"
says "the file" "1 none/order 1 (0)" "$(drive g '1 lookup 5/step 1x3')"
cp f g
"$HBPI" g drive <insert >&-
says "drive without an output: the line took effect" 5 $?
says "the file" "1 found =a/order 1 (0)" "$(drive g '1 lookup 5/step 1x3')"
cp f g
"$HBPI" g drive <insert >&- 2>&-
says "drive without both outputs" 5 $?
says "the file" "1 found =a/order 1 (0)" "$(drive g '1 lookup 5/step 1x3')"
cp f g
"$HBPI" g drive <insert >/dev/full
says "drive into a full output" 5 $?
says "the file" "1 found =a/order 1 (0)" "$(drive g '1 lookup 5/step 1x3')"
"$HBPI" j create 1 64 65536 6 32 >/dev/full
says "create into a full output: the file is made" 5 $?
says "the file" "1 none/order 1 (0)" "$(drive j '1 lookup 5/step 1x3')"
says "a refusal without a standard error" "disk fault (6)" "$(out=$("$HBPI" none drive <&- 2>&-); echo "$out ($?)")"
says "drive of a folder as the text" "source fault (4)" "$(call "$HBPI" g drive <.)"
exit $bad
