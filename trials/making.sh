#!/bin/sh
# A create, call of the system by call, as strace sees them: in which order they come; each one fails; the process is killed
# at each one. Nothing but a whole file may ever stand under the name. Whether a sync reaches the device, nobody can see here.
. "$(dirname "$(readlink -f "$0")")/lib.sh"

strace -o trace true 2>/dev/null || { echo "no strace can be used here"; exit 2; }

calls=statx,openat,flock,ftruncate,fsync,fdatasync,pwrite64,link,unlink,rename,write

# create under the options of strace, from the folder new.
try() {
    (cd new && call strace -o ../trace -e trace=$calls "$@" "$HBPI" g create 1 64 65536 6 32 </dev/null)
}

# The calls of a trace from the first look at the name on, each as its name and which one of that name it is.
numbered() {
    awk -F'(' '{ n[$1]++ } /^statx/ { on = 1 } on && /^[a-z0-9]+\(/ { print $1, n[$1] }' trace
}

# What stands in the folder new: files beside the name as beside.
there() {
    ls -A new | grep -v told | sed 's/^\.hbpi-new-.*/beside/' | tr '\n' ' ' | sed 's/ $//; s/^$/nothing/' | grep . || echo nothing
}

# A second create, and a lookup.
again() {
    rm -f new/.hbpi-new-*
    (cd new && [ ! -e g ] && make g && printf ', ')
    (cd new && drive g '1 lookup 5/step 1x3')
}

mkdir new
says "create" "created (0)" "$(try)"
# seven writes of zeros; the superblocks' places and the log area are zero then and not written again, so a sync comes, and
# then the root, the body of the superblock and its gate, each with a sync
zeros="pwrite64, pwrite64, pwrite64, pwrite64, pwrite64, pwrite64, pwrite64"
says "its calls" "statx g, openat /, openat /, openat /, openat new, flock, ftruncate, $zeros, fsync, fdatasync, pwrite64, fdatasync, pwrite64, fdatasync, pwrite64, fdatasync, link new g, unlink new, openat ., fsync, write, " \
    "$(awk '/^statx/ { on = 1 }
            on && /^[a-z0-9]+\(/ { name = $0; sub(/\(.*/, "", name); words = ""; rest = $0
                while (match(rest, /"[^"]*"/)) { word = substr(rest, RSTART + 1, RLENGTH - 2); rest = substr(rest, RSTART + RLENGTH)
                    if (name ~ /write/) continue
                    if (word ~ /\.hbpi-new-/) word = "new"; words = words " " word }
                printf "%s%s, ", name, words }' trace)"
numbered >all
rm -rf new
while read -r name number; do
    mkdir new
    got=$(try -e inject="$name:error=EIO:when=$number")
    case $name in
    write) says "$name fails: the file is made" "(5), g" "${got# }, $(there)" ;;
    *) says "$name $number fails" "disk fault (6), nothing" "$got, $(there)"
        told=$(grep -c '^hbpi: "g": ' new/told)
        says "one line is told" 1 "$told"
        says "a second create" "created (0), 1 none/order 1 (0)" "$(again)" ;;
    esac
    rm -rf new
done <<END
$(cat all)
END
while read -r name number; do
    mkdir new
    (try -e inject="$name:signal=KILL:when=$number") >/dev/null 2>&1
    left=$(there)
    case $left in nothing | beside) want="created (0), 1 none/order 1 (0)" ;; *) want="1 none/order 1 (0)" ;; esac
    says "killed at $name $number, which left '$left'" "$want" "$(again)"
    rm -rf new
done <all
# the look at the name finds nothing, as where another program is quicker
mkdir new && echo another >new/g
says "another file comes under the name" "disk fault (6), g" "$(try -e inject=statx:error=ENOENT), $(there)"
says "the same without second names for a file" "disk fault (6), g" \
    "$(try -e inject=statx:error=ENOENT -e inject=link:error=EPERM), $(there)"
says "it is as it was" "another" "$(cat new/g)"
rm -rf new && mkdir new
says "without second names for a file" "created (0), g" "$(try -e inject=link:error=EPERM), $(there)"
says "the file" "1 none/order 1 (0)" "$(again)"
rm -rf new && mkdir new
says "and without a new name" "disk fault (6), nothing" "$(try -e inject=link:error=EPERM -e inject=rename:error=EIO), $(there)"
rm -rf new && mkdir new
says "without a lock" "disk fault (6), nothing" "$(try -e inject=flock:error=ENOLCK), $(there)"
rm -rf new && mkdir new
says "a full disk" "disk fault (6), nothing" "$(try -e inject=pwrite64:error=ENOSPC:when=2), $(there)"
says "is told" 'hbpi: "g": can'"'"'t be given its size: No space left on device (os error 28)' "$(cat new/told)"
rm -rf new && mkdir new
says "a disk that is full later" "disk fault (6), nothing" "$(try -e inject=pwrite64:error=ENOSPC:when=9), $(there)"
says "is told" 'hbpi: "g": a write failed: No space left on device (os error 28)' "$(cat new/told)"

# in a container a process may have the number of one that was killed
alone() {
    (cd new && call "$@" unshare --pid --fork "$HBPI" g create 1 64 65536 6 32 </dev/null)
}
if unshare --pid --fork true 2>/dev/null; then
    rm -rf new && mkdir new && echo another >new/.hbpi-new-1 && ln new/.hbpi-new-1 new/other
    says "what another of the number has locked" "disk fault (6), beside other" "$(alone flock .hbpi-new-1), $(there)"
    says "is told" 'hbpi: "g": can'"'"'t be made beside it, as .hbpi-new-1: another program has it' "$(cat new/told)"
    says "what it left" "created (0), g other" "$(alone env), $(there)"
    says "and its other name stays as it was" "another" "$(cat new/other)"
    says "the file" "1 none/order 1 (0)" "$(again)"
else
    echo "     no container can be made here"
fi
exit $bad
