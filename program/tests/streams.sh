#!/bin/sh
# Runs the built program over files, standard streams and pipes: streams.sh PROGRAM
# They belong to the system, and neither contracts nor tests of the crates speak of them.
set -eu
program=$(realpath "$1")
room=$(mktemp -d)
trap 'rm -rf "$room"' EXIT
cd "$room"
fails() {
    echo "streams.sh: $*" >&2
    exit 1
}
# A run ends with this status and this fault, or without a fault: ends STATUS FAULT WORDS..
ends() {
    want=$1 fault=$2 status=0
    shift 2
    "$program" "$@" > printed 2> fault || status=$?
    [ $status = "$want" ] || fails "status $status and not $want: $*"
    [ "$(cat fault)" = "${fault:+aeadkit: $fault}" ] || fails "$(cat fault) and not $fault: $*"
}

once="--suite aes-128-gcm --key 000102030405060708090a0b0c0d0e0f --nonce 000102030405060708090a0b"
twice="--suite aes-128-gcm-siv --key 000102030405060708090a0b0c0d0e0f --nonce 000102030405060708090a0b"
printf 'hello' > text
head -c 300000 /dev/zero > long
for suite in once twice; do
    options=$(eval "echo \$$suite")
    for name in text long; do
        ends 0 '' seal-file $options --in $name --out $name.$suite
        ends 0 '' open-file $options --in $name.$suite --out out
        cmp out $name
        ends 0 '' seal-file $options --in /dev/stdin --out out < $name
        cmp out $name.$suite
        "$program" open-file $options --in $name.$suite --out /dev/stdout | cat > out
        cmp out $name
    done
done
[ "$(od -An -v -tx1 text.once | tr -d ' \n')" = "$("$program" seal $once --text 68656c6c6f)" ] || fails "seal and seal-file differ"

# A pipe is read once: what has to be read again is refused, and OUT stays.
"$program" seal-file $once --in /dev/stdin --out out < long
cmp out long.once
cat long > out
cat long | ends 3 SourceChanged seal-file $twice --in /dev/stdin --out out
cat long.once | ends 3 SourceChanged open-file $once --in /dev/stdin --out out
ends 1 TagMismatch open-file $once --in long.twice --out out
ends 1 TooShort open-file $once --in text --out out
ends 3 Read seal-file $once --in none --out out
ends 2 Words seal-file $once --in out --out out
cmp out long
ends 3 Write seal-file $once --in text --out no/out

# An OUT that is IN under another name is refused, whatever the other words are, and IN stays.
ln long hard
ln -s long link
mkdir folder
ln -s .. folder/up
for name in ./long hard link folder/up/long "$room/long"; do
    ends 2 Words seal-file $once --in long --out "$name"
    ends 2 Words seal-file $twice --in "$name" --out long
    ends 2 Words open-file --suite des --key 0 --nonce 0 --in long --out "$name"
done
ends 2 Words seal-file $once --in /dev/stdin --out hard < long
status=0
"$program" seal-file $once --in long --out /dev/stdout >> link 2> fault || status=$?
[ "$status $(cat fault)" = "2 aeadkit: Words" ] || fails "standard output over IN: $status $(cat fault)"
[ "$(tr -d '\0' < long | wc -c) $(wc -c < long)" = "0 300000" ] || fails "IN was written under another name"

# A link that leads nowhere yet, and a device that keeps no bytes, are not IN. A file that ends too early is not IN as a whole.
ln -s new nowhere
ends 0 '' seal-file $once --in long --out nowhere
cmp new long.once
ends 0 '' seal-file $once --in /dev/null --out /dev//null
! head -c 1 /sys/kernel/uevent_seqnum > /dev/null 2>&1 || ends 3 Read seal-file $once --in /sys/kernel/uevent_seqnum --out out

# Standard output is closed.
status=0
"$program" --version >&- 2> fault || status=$?
[ "$status $(cat fault)" = "3 aeadkit: Write" ] || fails "a closed standard output: $status"

# A new OUT has the permissions that umask leaves.
rm out
(umask 077 && ends 0 '' open-file $once --in text.once --out out)
[ "$(stat -c %a out)" = 600 ] || fails "a new OUT is $(ls -l out)"

# A name of a file that begins with - stands after --.
printf 'format = 1\nsuite = aes-128-wrap\nkey = 00\n' > ./-vectors
ends 2 Words check -vectors
ends 1 "BadLength at line 3" check -- -vectors
echo "ok: aeadkit over files, standard streams and pipes"
