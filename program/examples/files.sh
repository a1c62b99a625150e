#!/bin/sh
# Seals files with the program aeadkit and opens them again, and shows what a script does with the statuses:
#
#   files.sh seal KEYFILE LABEL IN OUT
#   files.sh open KEYFILE LABEL IN OUT
#
# KEYFILE holds a key of 32 bytes in hex, as `od -An -v -tx1 -N32 /dev/urandom | tr -d ' \n'` prints one. The program takes the
# key as a word, which the list of processes shows to every user of the machine: use one of your own.
#
# The suite is always AES-256-GCM-SIV: a name of it in a file that nobody authenticated would let others choose. A sealed file holds
# neither its nonce nor its associated data. So sealing writes OUT.how beside OUT, with the nonce and the label. Without it OUT can't
# be opened: keep and move both together. What the script does against
# - reordering and cutting: the file is one sealing, which opens as a whole or not at all;
# - swapping: LABEL is the associated data, and is given again to open. Another sealed file opens in this one's place, with
#   its own OUT.how, only if its label is the same: let the label say what the file is, and when it was sealed;
# - a nonce that comes twice: it is drawn at random for each file, and a repeat under AES-GCM-SIV gives away only whether text
#   and label were the same.
# OUT must not exist, nor OUT.how when OUT is sealed. Both are written under other names, and get their own after status 0.
#
# Status: 0 done; 1 not authentic: changed, cut, or sealed under another key, nonce or label; 2 wrong words, key or
# OUT.how; 3 a file failed, or changed while it was read; 4 out of memory.
set -eu
suite=aes-256-gcm-siv

fail() {
    echo "files.sh: $2" >&2
    exit "$1"
}

# Bytes of standard input in hex, on one line.
hex() {
    od -An -v -tx1 | tr -d ' \n'
}

# Runs a file command of the program from IN to the new name: run COMMAND. It comes back if the new file is whole.
run() {
    status=0
    "${AEADKIT:-aeadkit}" "$1" --suite "$suite" --key "$key" --nonce "$nonce" --aad "$(printf %s "$label" | hex)" \
        --in "$in" --out "$new" || status=$?
    case $status in
    0) ;;
    1) fail 1 "$in is not authentic: it was changed or cut, or has another key, nonce or label" ;;
    2) fail 2 "the key in $key_file or the contents of $how are wrong" ;;
    3) fail 3 "$in or $out failed, or $in was written meanwhile; it may be tried again" ;;
    4) fail 4 "out of memory; it may be tried again" ;;
    *) fail 3 "the program ended with status $status" ;; # by a signal, as at the limit on the sizes of files
    esac
}

[ $# = 5 ] || fail 2 "usage: files.sh seal|open KEYFILE LABEL IN OUT"
key_file=$2 label=$3 in=$4 out=$5
case $label in *"
"*) fail 2 "a label is one line" ;; esac
case $in in -*) in=./$in ;; esac # a name that begins with - is not an option
case $out in -*) out=./$out ;; esac
[ ! -e "$out" ] || fail 2 "$out exists"
key=$(cat -- "$key_file") || fail 2 "$key_file can't be read"
new=$(mktemp "$out.XXXXXX") || fail 3 "$out can't be written"
trap 'rm -f "$new" "$new.how"' EXIT
case $1 in
seal)
    how=$out.how
    [ ! -e "$how" ] || fail 2 "$how exists" # without it another sealed file can't be opened
    nonce=$(head -c 12 /dev/urandom | hex)
    run seal-file
    printf 'nonce=%s\nlabel=%s\n' "$nonce" "$label" > "$new.how" || fail 3 "$how can't be written"
    mv "$new.how" "$how" || fail 3 "$how can't be written" ;;
open)
    how=$in.how
    [ -r "$how" ] || fail 3 "$how can't be read"
    nonce=$(sed -n 's/^nonce=//p' "$how")
    [ "$label" = "$(sed -n 's/^label=//p' "$how")" ] || fail 1 "$in has another label"
    run open-file ;;
*) fail 2 "usage: files.sh seal|open KEYFILE LABEL IN OUT" ;;
esac
mv "$new" "$out" || fail 3 "$out can't be written"
