# Completes command lines with the function that a file of pages.sh defines, as readline calls it: completion.bash FILE
# Readline hands over the words as they were typed. It cuts them at =, unless COMP_WORDBREAKS was told not to.
set -eu
. "$1"
bind -v > /dev/null 2>&1 # so that compgen takes quotes off names, as it does within a completion
room=$(mktemp -d)
trap 'rm -rf "$room"' EXIT
cd "$room"
mkdir "sub dir"
touch "my file" "sub dir/inner one" plain 'st*r' stone
compopt() { # the builtin works within a completion alone
    as_files=$*
}

# completed REPLIES WORD..: completes the last of the words to these replies, sorted and each in brackets.
completed() {
    local wanted=$1 found
    shift
    COMP_WORDS=("$@") COMP_CWORD=$(($# - 1)) COMPREPLY=() as_files=
    _aeadkit || true
    found=$(printf '[%s]\n' "${COMPREPLY[@]+"${COMPREPLY[@]}"}" | LC_ALL=C sort | tr -d '\n')
    if [ "$found" != "$wanted" ]; then
        echo "'$*' is completed to $found and not to $wanted" >&2
        exit 1
    fi
}
# So are names, which readline then quotes.
named() {
    completed "$@"
    [ "$as_files" = "-o filenames" ] || { echo "'$*' is not completed as names of files" >&2; exit 1; }
}
completed '[seal-file][seal]' aeadkit sea
completed '[unwrap]' aeadkit help u
completed '[--nonce]' aeadkit seal --n
completed '[--aad][--help][--key][--nonce][--out][--suite]' aeadkit seal-file --in letter.txt ''
completed '[--aad][--help][--in][--nonce][--out]' aeadkit open-file --suite = aes-128-gcm --key=00 ''
completed '[--help]' aeadkit unwrap --sealed 00 --key 00 --pad --
completed '[--key]' aeadkit wrap --key
completed '[chacha20-poly1305]' aeadkit seal --suite ch
completed '[chacha20-poly1305]' aeadkit seal --suite = ch
completed '[aes-128-gcm-siv]' aeadkit seal-file --key 00 --suite = aes-128-gcm-
completed '[]' aeadkit seal --key = ''
named '[my file]' aeadkit seal-file --in my
named '[my file]' aeadkit seal-file --in = my
named '[my file]' aeadkit seal-file --in 'my\ f'
named '[sub dir/inner one]' aeadkit open-file --suite = aes-128-gcm --out = 'sub\ dir/i'
named '[st*r][stone]' aeadkit open-file --out st
named '[my file][plain][st*r][stone][sub dir]' aeadkit open-file --in =
named '[my file]' aeadkit check m
echo "ok: completion in bash keeps names with spaces, and works after ="
