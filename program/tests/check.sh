#!/bin/sh
# Tests the program as it was built, and what is laid out beside it: check.sh PROGRAM
# The shells bash, zsh and fish, and groff, are used where they are there.
set -eu
program=$(realpath "$1")
here=$(cd "$(dirname "$0")" && pwd)
docs=$here/../../docs
room=$(mktemp -d)
trap 'rm -rf "$room"' EXIT
share=$room/share
mkdir "$room/bin"
ln -s "$program" "$room/bin/aeadkit"
PATH=$room/bin:$PATH
fail() {
    echo "check.sh: $*" >&2
    exit 1
}
has() {
    command -v "$1" > /dev/null || { echo "left out: $1, which is not there" && return 1; }
}

# ---- The man page has each fault of the documents, and no link of the documents leads to a file that is not beside them.
"$here/../pages.sh" "$program" "$share"
for document in COMMAND VECTOR-FILES; do
    for fault in $(awk -F '|' '/^\|/ { print $2; print $4 }' "$docs/$document.md" | grep -oE '`[A-Z][A-Za-z]+`' | tr -d '`'); do
        grep -q "^\\\\fB.*$fault" "$share/man/man1/aeadkit.1" || fail "the man page has no $fault"
    done
    for link in $(grep -oE '\]\([^)#]+' "$share/doc/aeadkit/$document.md" | cut -c 3-); do
        [ -e "$share/doc/aeadkit/$link" ] || fail "$document.md leads to $link"
    done
done
if has groff; then
    groff -man -Tutf8 -P-cbou -rLL=80n -ww "$share/man/man1/aeadkit.1" 2>&1 > "$room/page" | tee "$room/log"
    [ ! -s "$room/log" ] && grep -q -- '--suite <SUITE>' "$room/page" || fail "the man page"
    [ "$(wc -L < "$room/page")" -le 80 ] || fail "the man page has lines of more than 80 columns"
    for heading in NAME SYNOPSIS DESCRIPTION OPTIONS FILES "EXIT STATUS" EXAMPLES; do
        grep -qx "$heading" "$room/page" || fail "the man page has no section $heading"
    done
fi
for vectors in published edges; do
    records=$(sed -n '1s/.*`\(records [0-9]*\)`.*/\1/p' "$docs/$vectors.vectors")
    [ "$(aeadkit check "$docs/$vectors.vectors")" = "$records" ] || fail "$vectors.vectors has not $records that agree"
done
for command in aeadkit $(aeadkit help | awk '/^$/ { on = 0 } on && $1 != "help" { print $1 } /^Commands:/ { on = 1 }'); do
    aeadkit help ${command#aeadkit} | grep -v "^Usage:" > "$room/help"
    [ "$(wc -L < "$room/help")" -le 79 ] || fail "the help of $command has lines of more than 79 columns"
done

# ---- Completions.
cd "$room"
touch "my file"
! has bash || bash "$here/completion.bash" "$share/bash-completion/completions/aeadkit"
if has fish; then
    completed=$(HOME=$room fish -c "source $share/fish/vendor_completions.d/aeadkit.fish
        for line in 'aeadkit sea' 'aeadkit help un' 'aeadkit seal --suite=ch' 'aeadkit seal-file --in my' 'aeadkit wrap --p' \
                'aeadkit unwrap --key=00 --pad --'
            complete -C \$line | string split -f 1 \t
        end" | tr '\n' ' ')
    [ "$completed" = "seal seal-file unwrap --suite=chacha20-poly1305 my file --pad --help --sealed " ] || fail "fish completes to $completed"
fi
! has zsh || zsh -n "$share/zsh/site-functions/_aeadkit"

# ---- Streams, pipes and several names of one file.
"$here/streams.sh" "$program"

# ---- files.sh: does STATUS WORD.. of it
head -c 32 /dev/urandom | od -An -v -tx1 | tr -d ' \n' > key
tr 0-9 1-90 < key > another-key
head -c 100000 /dev/urandom > "a text"
does() {
    expected=$1 status=0
    shift
    "$here/../examples/files.sh" "$@" 2> fault || status=$?
    [ $status = "$expected" ] || { cat fault >&2; fail "files.sh $* ends with $status and not $expected"; }
}
does 0 seal key "it's a label" "a text" sealed
does 0 open key "it's a label" sealed opened
cmp opened "a text"
does 2 open key "it's a label" sealed opened # opened is there
echo suite=aes-256-gcm >> sealed.how # the suite is not for the file to choose
does 0 open key "it's a label" sealed opened-again
does 1 open key "another label" sealed out
does 1 open another-key "it's a label" sealed out
does 3 seal key label no-file out
mv sealed moved
does 2 seal key label "a text" sealed # sealed.how is there
mv moved sealed
for damage in 'head -c 65536' 'sed s/^/x/' 'cat - key'; do
    $damage < sealed > changed
    cp sealed.how changed.how
    does 1 open key "it's a label" changed out
done
[ ! -e out ] && [ ! -e out.how ] || fail "files.sh leaves a file of what it refuses"

# ---- The scripts of the documents, on good and on failing inputs.
# Prints the block, indented by 4, under the first line of a document that ends in these words: block DOCUMENT WORDS
block() {
    awk -v words="$2" '
        at && /^    / { print substr($0, 5); at = 2; next }
        at == 2 || (at && !/^$/) { exit }
        !at { at = length($0) >= length(words) && substr($0, length($0) - length(words) + 1) == words }
        END { exit at != 2 }
    ' "$docs/$1.md" || fail "$1.md has no script under '$2'"
}
# Runs a script: pasted STATUS DOCUMENT WORDS
pasted() {
    block "$2" "$3" > "$room/script"
    status=0
    sh "$room/script" > "$room/printed" 2> "$room/fault" || status=$?
    [ $status = "$1" ] || { cat "$room/fault" >&2; fail "the script of $2.md under '$3' ends with $status and not $1"; }
}
mkdir pasted
cd pasted
key=$(cat ../key) suite=aes-256-gcm-siv nonce=000102030405060708090a0b aad=00 text=0102 source="a test"
export key suite nonce aad text source
opens="the status of the step that failed:"
aeadkit seal-file --suite $suite --key "$key" --nonce $nonce --in "../a text" --out backup.sealed
pasted 0 COMMAND "$opens"
cmp backup "../a text"
printf x >> backup.sealed
pasted 1 COMMAND "$opens"
cmp backup "../a text"
echo 'format = 1' > FILE
cp FILE my.vectors
pasted 0 VECTOR-FILES "with the inputs in variables:"
aeadkit check my.vectors > printed
[ "$(cat printed)" = "records 1" ] || fail "the script of VECTOR-FILES.md writes no record"
printf 'suite = aes-128-wrap\nkey = 000102030405060708090a0b0c0d0e0f\nsealed = 00\ntext = 00\n' >> FILE
(bad=1 && export bad && pasted 1 VECTOR-FILES 'of `check`:')
grep -q 'bad 1' "$room/printed" || fail "the report of VECTOR-FILES.md is not printed"
# The examples print what stands below them.
block COMMAND '## Examples' | awk '
    /^\$ / || more { more = /\\$/; sub(/^\$ /, ""); print > "commands"; next }
    { print > "answers" }
'
sh -e commands > printed
cmp answers printed
echo "ok: $(aeadkit --version), its pages, completions, examples and scripts"
