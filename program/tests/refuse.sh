#!/bin/sh
# Refuses each request of the built program for memory in turn, also while it reads the words of the command line:
# refuse.sh PROGRAM
# The answer has to be 'aeadkit: OutOfMemory' with status 4, and OUT must not exist, until no request of a run is refused;
# then the answer has to be the right one. It prints for each command how many requests were refused. It needs cc.
set -eu
if [ $# != 1 ]; then
    echo "usage: refuse.sh PROGRAM" >&2
    exit 2
fi
program=$(realpath "$1")
cd "$(dirname "$0")"
room=$(mktemp -d)
trap 'rm -rf "$room"' EXIT
cc -O2 -Wall -Wextra -shared -fPIC -o "$room/refuse.so" refuse.c
printf 'hello' > "$room/in"
key=000102030405060708090a0b0c0d0e0f
nonce=000102030405060708090a0b
"$program" seal-file --suite aes-128-gcm --key $key --nonce $nonce --in "$room/in" --out "$room/sealed"
cat > "$room/vectors" <<END
format = 1
suite = aes-128-wrap
key = $key
sealed = 1fa68b0a8112b447aef34bd8fb5a7b829d3e862371d2cfe5
text = 00112233445566778899aabbccddeeff
END

# The outcome of a run with request number $1 refused: its status, its two outputs, and whether OUT was made.
answer() {
    rm -f "$room/out"
    number=$1
    shift
    status=0
    REFUSE=$number LD_PRELOAD="$room/refuse.so" "$program" "$@" > "$room/answer" 2> "$room/fault" || status=$?
    echo "status $status"
    cat "$room/answer" "$room/fault"
    [ ! -e "$room/out" ] || echo "OUT was made"
}

tried() {
    right=$(answer 0 "$@")
    refused=0
    number=1
    same=0
    # After twenty right answers in a row, the number is past the last request.
    while [ $same -lt 20 ]; do
        found=$(answer $number "$@")
        if [ "$found" = "$right" ]; then
            same=$((same + 1))
        elif [ "$found" = "$(printf 'status 4\naeadkit: OutOfMemory')" ]; then
            refused=$((refused + 1))
            same=0
        else
            echo "aeadkit $*: with request $number refused it answers: $found" >&2
            exit 1
        fi
        number=$((number + 1))
    done
    [ $refused -gt 0 ] || { echo "aeadkit $*: no request was refused" >&2; exit 1; }
    echo "ok: aeadkit ${1:-} ($refused requests)"
}
tried
tried help seal
tried --version
tried wrap --key $key --text 00112233445566778899aabbccddeeff
tried unwrap --key $key --sealed 1fa68b0a8112b447aef34bd8fb5a7b829d3e862371d2cfe5
tried wrap --key $key --text 0011223344 --pad
tried seal --suite aes-128-gcm-siv --key $key --nonce $nonce --text 00 --aad 01
tried open --suite aes-128-gcm --key 00000000000000000000000000000000 --nonce 000000000000000000000000 \
    --sealed 58e2fccefa7e3061367f1d57a4e7455a
tried seal-file --suite aes-128-gcm --key $key --nonce $nonce --in "$room/in" --out "$room/out"
tried open-file --suite aes-128-gcm --key $key --nonce $nonce --in "$room/sealed" --out "$room/out"
tried check "$room/vectors"
