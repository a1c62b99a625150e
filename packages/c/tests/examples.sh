#!/bin/sh
# Runs the examples on whole and on damaged messages, files, wrappings and backups: examples.sh FOLDER of the programs
set -eu
bin=$(cd "$1" && pwd)
sample=$(cd "$(dirname "$0")/../examples" && pwd)/sample.segments
room=$(mktemp -d)
trap 'rm -rf "$room"' EXIT
cd "$room"
export ASAN_OPTIONS=detect_leaks=0

# Runs an example, which has to end with STATUS: does STATUS WORD..
does() {
    expected=$1 example=$2 status=0
    shift 2
    "$bin/$example" "$@" > out 2> fault || status=$?
    [ $status = "$expected" ] || { echo "$example $* ends with $status and not $expected:" >&2; cat fault >&2; exit 1; }
}
# Copies a file with one byte changed: damaged FILE PLACE COPY
damaged() {
    byte=$(tail -c +$(($2 + 1)) "$1" | head -c 1 | od -An -tu1)
    { head -c "$2" "$1"; printf "\\$(printf %o $((byte ^ 1)))"; tail -c +$(($2 + 2)) "$1"; } > "$3"
}
head -c 32 /dev/urandom > key
head -c 32 /dev/urandom > another-key

# A message of 54 bytes: any of them changed.
does 0 message
for byte in 0 11 12 37 38 53; do
    does 1 message $byte
    [ ! -s out ]
done

# A file of lengths about that of a piece: changed, cut, longer, or under another key or label. The old output stays.
for size in 0 1 65535 65536 65537 200000; do
    head -c $size /dev/urandom > text
    does 0 file seal key label text sealed
    does 0 file open key label sealed opened
    cmp text opened
done
for place in 0 12 65548 200011 200012; do
    damaged sealed $place changed
    does 1 file open key label changed opened
done
for size in 0 27 28 65576 200027; do
    head -c $size sealed > changed
    does 1 file open key label changed opened
done
{ cat sealed; printf x; } > changed
does 1 file open key label changed opened
does 1 file open another-key label sealed opened
does 1 file open key another-label sealed opened
cmp text opened

# A wrapping under a key of each length, with and without padding: each of its bytes changed.
for size in 16 24 32; do
    head -c $size key > user-key
    for way in "" -padded; do
        does 0 wrap wrap$way user-key < another-key
        mv out wrapped
        does 0 wrap unwrap$way user-key < wrapped
        cmp out another-key
        for place in 0 7 8 39; do
            damaged wrapped $place changed
            does 1 wrap unwrap$way user-key < changed
            [ ! -s out ]
        done
    done
done

# Threads that share a key.
does 0 threads
does 1 threads 1000

# A backup in segments: changed, cut, longer, with segments exchanged, left out or doubled. What comes out is a beginning of the text.
mib=1048576 segment=1048592
for size in 0 1 $mib $((mib + 1)) $((3 * mib + 5)); do
    head -c $size /dev/urandom > text
    does 0 backup seal key label < text
    mv out sealed
    does 0 backup open key label < sealed
    cmp out text
done
refused() {
    does 1 backup open "$@" < changed
    head -c "$(wc -c < out)" text | cmp - out
    ! cmp -s out text
}
part() {
    tail -c +$(($1 + 1)) sealed | head -c "$2"
}
for place in 0 8 48 $((48 + segment)) $((48 + 3 * segment + 20)); do
    damaged sealed $place changed
    refused key label
done
for size in 0 47 48 $((48 + segment)) $((48 + 3 * segment)); do
    part 0 $size > changed
    refused key label
done
{ cat sealed; printf x; } > changed
refused key label
{ part 0 48; part $((48 + segment)) $segment; part 48 $segment; part $((48 + 2 * segment)) $((2 * segment)); } > changed
refused key label
{ part 0 48; part $((48 + segment)) $((3 * segment)); } > changed
refused key label
{ part 0 $((48 + segment)); part 48 $((4 * segment)); } > changed
refused key label
cp sealed changed
refused key another-label
refused another-key label
# The sample opens in Python too.
printf 'a key of 32 bytes for the sample' > key
does 0 backup open key sample < "$sample"
[ "$(cat out)" = "The parcel leaves at nine, and the letter at ten." ]
echo "ok: the examples"
