#!/bin/sh
# Files that are there, that aren't, and that can't be had; and words that are no call.
. "$(dirname "$(readlink -f "$0")")/lib.sh"

says "create" "created (0)" "$(make f)"
hears "nothing is told" ""
says "size" "401408" "$(stat -c %s f)"
says "insert" "1 ok/order 1 (0)" "$(drive f '1 insert 5 =a/step 1x4')"
before=$(cksum <f)
says "create on a file that is there" "disk fault (6)" "$(make f)"
hears "told" "hbpi: \"f\": can't be made: one of this name is there/"
says "and it is as it was" "$before" "$(cksum <f)"
says "lookup" "1 found =a/order 1 (0)" "$(drive f '1 lookup 5/step 1x3')"
says "check" "sound height 1 pages 1 records 1 (0)" "$(call "$HBPI" f check </dev/null)"
says "check again" "sound height 1 pages 1 records 1 (0)" "$(call "$HBPI" f check </dev/null)"
says "check without a file" "small 8192 0 (9)" "$(call "$HBPI" - check </dev/null)"
says "check of a file that isn't there" "disk fault (6)" "$(call "$HBPI" none check </dev/null)"
ln -s nowhere link
says "create on a link that leads nowhere" "disk fault (6)" "$(make link)"
hears "told" "hbpi: \"link\": can't be made: one of this name is there/"
says "drive of it" "disk fault (6)" "$(drive link '')"
says "create in a folder that isn't there" "disk fault (6)" "$(make none/f)"
hears "told" "hbpi: \"none/f\": can't be made beside it, as .hbpi-new-#: its folder isn't there/"
says "create below a file" "disk fault (6)" "$(make f/g)"
hears "told" "hbpi: \"f/g\": can't be made: Not a directory (os error 20)/"
says "create under a name without a letter" "disk fault (6)" "$(make '')"
says "drive of a file that isn't there" "disk fault (6)" "$(drive none '')"
hears "told" "hbpi: \"none\": can't be opened for reading and writing: No such file or directory (os error 2)/"
[ -e none ] && says "a file was made" no yes
says "a name of two lines is told in one" "disk fault (6)" "$(drive "a
b" '')"
hears "told" "hbpi: \"a\\nb\": can't be opened for reading and writing: No such file or directory (os error 2)/"
mkdir folder
says "create on a folder" "disk fault (6)" "$(make folder)"
says "drive of a folder" "disk fault (6)" "$(drive folder '')"
hears "told" "hbpi: \"folder\": can't be opened for reading and writing: Is a directory (os error 21)/"
ln -s f way
says "drive by a link" "1 found =a/order 1 (0)" "$(drive way '1 lookup 5/step 1x3')"
mkfifo pipe
says "drive of a pipe" "small 8192 0 (9)" "$(drive pipe '')"
says "create on a pipe" "disk fault (6)" "$(make pipe)"
says "drive of an empty file" "small 8192 0 (9)" "$(: >empty; drive empty '')"
says "drive of /dev/null" "small 8192 0 (9)" "$(drive /dev/null '')"

says "run with a file" "order (0)" "$(call "$HBPI" f run </dev/null)"
says "run without one" "small 8192 0 (9)" "$(call "$HBPI" - run </dev/null)"
says "work without one" "small 8192 0 (9)" "$(call "$HBPI" - work 1 10 </dev/null)"

# forms that need no file open it all the same
before=$(cksum <f)
says "dry with a file" "order (0)" "$(call "$HBPI" f dry 1 </dev/null)"
says "dry without one" "order (0)" "$(call "$HBPI" - dry 1 </dev/null)"
says "dry of a file that isn't there" "disk fault (6)" "$(call "$HBPI" none dry 1 </dev/null)"
hears "told" "hbpi: \"none\": can't be opened for reading and writing: No such file or directory (os error 2)/"
says "the file is as it was" "$before" "$(cksum <f)"
says "map with a file" "height 1 root 1 pages 1 free 63/page 1 level 0 weight 1 parents 0/records 1 0 18446744073709551615 (0)" "$(call "$HBPI" f map </dev/null)"
says "map without one" "small 8192 0 (9)" "$(call "$HBPI" - map </dev/null)"
says "map of a file that isn't there" "disk fault (6)" "$(call "$HBPI" none map </dev/null)"
says "tidy with a file" "tidy grown 0 posted 0 split 0 merged 0 (0)" "$(call "$HBPI" f tidy </dev/null)"
says "tidy without one" "small 8192 0 (9)" "$(call "$HBPI" - tidy </dev/null)"
says "tidy of a file that isn't there" "disk fault (6)" "$(call "$HBPI" none tidy </dev/null)"
says "no word" "usage (2)" "$(call "$HBPI" </dev/null)"
says "a name alone" "usage (2)" "$(call "$HBPI" f </dev/null)"
bad_word=$(printf 'a\377')
says "a name that isn't UTF-8" "usage (2)" "$(call "$HBPI" "$bad_word" create 1 64 65536 6 32 </dev/null)"
says "a word that isn't" "usage (2)" "$(call "$HBPI" g "$bad_word" </dev/null)"
says "bad layout makes no file" "bad layout DCAP 5 (9)" "$(call "$HBPI" g create 1 64 65536 5 32 </dev/null)"
says "words that are no form make no file" "usage (2)" "$(call "$HBPI" g create 1 64 65536 6 </dev/null)"
says "what stands here" "empty f folder link pipe text told way" "$(ls | tr '\n' ' ' | sed 's/ $//')"

# as a user without rights, where this one has all
mkdir shut && cp f shut/f && chmod 644 shut/f && chmod 555 shut && chmod 755 "$room"
cp "$HBPI" program && chmod 755 program
user=$([ "$(id -u)" = 0 ] && echo "setpriv --reuid=65534 --regid=65534 --clear-groups")
says "create in a folder that can't be written" "disk fault (6)" \
    "$(call $user ./program shut/g create 1 64 65536 6 32 </dev/null)"
hears "told" "hbpi: \"shut/g\": can't be made beside it, as .hbpi-new-#: Permission denied (os error 13)/"
if [ -n "$user" ]; then
    says "drive of a file that can't be written" "disk fault (6)" "$(call $user ./program shut/f drive </dev/null)"
    hears "told" "hbpi: \"shut/f\": can't be opened for reading and writing: Permission denied (os error 13)/"
fi
chmod 755 shut
exit $bad
