#!/bin/sh
# The script ./hbpi of this repository: that it makes the unproved program once, and that no input, answer or signal is lost
# on the way to a program. It runs in a copy without anything built, first over the unproved program, and then over the
# proved one where ./build has made it here. `script.sh kept` takes the unproved program that stands here already.
top=$(dirname "$(dirname "$(readlink -f "$0")")")
HBPI=$top/hbpi
. "$top/trials/lib.sh"

mkdir copy copy/crates
cp -r "$top/hbpi" "$top/build" "$top/tools" "$top/crates.txt" copy
for crate in "$top"/crates/*; do
    mkdir "copy/crates/$(basename "$crate")"
    cp -r "$crate/src" "copy/crates/$(basename "$crate")"
done
HBPI=$room/copy/hbpi
out=$room/copy/crates/hbpi_cli/out

# Whether somebody has a lock on the file f.
is_locked() {
    grep -q "FLOCK.*:$(stat -c %i f) " /proc/locks
}

# The milliseconds that a call takes, the least of five.
least() {
    least=99999
    for _ in 1 2 3 4 5; do
        begun=$(date +%s%N)
        "$@" >/dev/null 2>&1
        took=$((($(date +%s%N) - begun) / 1000000))
        [ $took -lt $least ] && least=$took
    done
    echo $least
}

# What must not be lost, over the program that is there now.
five() {
    rm -f f
    says "$1: create" "created (0)" "$(make f)"
    hears "$1: nothing more is told" ""
    says "$1: each further command takes less than a second" yes "$(took=$(least "$HBPI" f check); [ "$took" -lt 1000 ] && echo yes || echo "$took ms")"
    says "$1: an input that is silent for three seconds" "1 ok/order 1 (0)" "$( (sleep 3; echo "1 insert 1 =late") | call "$HBPI" - dry 1)"
    yes "16 search 10000000000000000000 18446744073709551615 10000000000000000000 18446744073709551615 10000000000000000000 18446744073709551615 10000000000000000000 18446744073709551615" |
        head -n 400000 >text
    echo "1 insert 1 2 3 4 =last" >>text
    says "$1: an input of more than 64 MiB" "71200023 400000 400001 ok" \
        "$("$HBPI" - dry 4 <text >got; echo "$(wc -c <text) $(grep -c ' box 0$' got) $(grep ' ok$' got)")"
    (echo "1 insert 7 =there"; yes "1 lookup 7" | head -n 100000) >text
    says "$1: an output of more than 1 MiB: status, answers, order" "0 1 100000 1" \
        "$("$HBPI" f run <text >got; echo "$? $(grep -c ' ok$' got) $(grep -c ' found =there$' got) $(grep -c '^order 1 .* 100001$' got)")"
    says "$1: its length" yes "$([ "$(wc -c <got)" -gt 1048576 ] && echo yes)"
    rm -f input && mkfifo input
    "$HBPI" f run <input >got 2>told 3>&- &
    told_to_end=$!
    exec 3>input
    echo "1 insert 8 =never" >&3
    for _ in 1 2 3 4 5 6 7 8 9 10 11 12 13 14 15 16 17 18 19 20; do is_locked && break; sleep 0.1; done
    kill -TERM $told_to_end
    wait $told_to_end 2>/dev/null
    says "$1: a command that was sent TERM" "143, which wrote nothing" "$?, which wrote $([ -s got ] && cat got || echo nothing)"
    exec 3>&-
    sleep 1
    says "$1: it changes nothing later" "1 none/2 found =there/order 1 2 (0)" "$(drive f '1 lookup 8/1 lookup 7/step 1x6')"
    says "$1: a closed input" "source fault (4)" "$(call "$HBPI" f run <&-)"
    says "$1: a closed output" 5 "$("$HBPI" f check </dev/null >&-; echo $?)"
    says "$1: words with spaces and signs" "usage (2)" "$(call "$HBPI" f 'a  b' '*' </dev/null)"
    says "$1: a link to the script" "order (0)" "$(ln -sf "$HBPI" way; call ./way - dry 1 </dev/null)"
}

if [ "$1" = kept ]; then
    mkdir "$out"
    cp "$top/crates/hbpi_cli/out/hbpi_cli.unproved" "$out"
else
    "$HBPI" f create 1 64 65536 6 32 >got 2>told &
    first=$!
    sleep 3
    kill -TERM $first
    wait $first 2>/dev/null
    says "TERM while the program is made" "143: nothing is left" "$?: $(ls "$out" f 2>/dev/null | grep -v "^/\|^$" | grep . || echo nothing is left)"
    begun=$(date +%s)
    says "the first command" "created (0)" "$(make f)"
    echo "     it took $(($(date +%s) - begun)) seconds"
    hears "it says once that the program isn't proved" "hbpi: this program isn't proved; making it takes a minute, once. ./build makes the proved one/"
    says "what it keeps" "hbpi_cli.unproved hbpi_cli.unproved.sum" "$(ls "$out" | tr '\n' ' ' | sed 's/ $//')"
fi
five unproved
PATH=$(echo "$PATH" | tr ':' '\n' | while read -r folder; do [ -e "$folder/rt" ] || echo "$folder"; done | paste -sd: -)
says "without the toolchain" "order (0)" "$(call "$HBPI" - dry 1 </dev/null)"
sleep 1
touch copy/crates/hbpi/src/lib.rt
says "without it, and a source is newer" "order (0)" "$(call "$HBPI" - dry 1 </dev/null)"
hears "told" "hbpi: a source is newer than the program, and rt is not on the PATH/"
mv "$out" aside
says "without it and a program" " (127)" "$(call "$HBPI" - dry 1 </dev/null)"
mv aside "$out"
if [ -x "$top/crates/hbpi_cli/out/hbpi_cli" ]; then
    cp "$top/crates/hbpi_cli/out/hbpi_cli" "$out"
    rm "$out/hbpi_cli.unproved"
    five proved
else
    echo "     ./build hasn't made the proved program, so it isn't tried"
fi
exit $bad
