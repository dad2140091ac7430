# What the trials share. HBPI is the program; each trial runs in a new folder, which is removed at its end.
: "${HBPI:?set HBPI to the program}"
HBPI=$(readlink -f "$HBPI")
bad=0
room=$(mktemp -d)
trap 'rm -rf "$room"' EXIT
cd "$room" || exit 2

# says NAME WANT GOT: WANT and GOT are an output, with a slash for each line feed, and a status.
says() {
    if [ "$2" = "$3" ]; then
        printf '%s\n' "ok   $1: $3"
    else
        printf '%s\n' "BAD  $1: $3, but wanted: $2"
        bad=1
    fi
}

# The output of a call with a slash for each line feed, and its status. Its standard error goes to the file told.
call() {
    out=$("$@" 2>told)
    status=$?
    printf '%s (%d)' "$(printf '%s' "$out" | tr '\n' '/')" "$status"
}

# The same for a text, given with slashes for line feeds.
drive() {
    printf '%s/' "$2" | tr '/' '\n' >text
    call "$HBPI" "$1" drive <text
}

make() {
    call "$HBPI" "$1" create 1 64 65536 6 32 </dev/null
}

# hears NAME WANT: what the last call told on its standard error, with # for the number of a process.
hears() {
    says "$1" "$2" "$(sed 's/hbpi-new-[0-9]*/hbpi-new-#/' told | tr '\n' '/')"
}
