#!/bin/sh
# Lays out what a user of the program reads: pages.sh PROGRAM SHARE
# SHARE gets the man page, which is made of the help that the program prints, the manual, the format of vector files, files.sh, and the
# completions of bash, zsh and fish.
set -eu
if [ $# != 2 ]; then
    sed -n '2,4s/^# //p' "$0" >&2
    exit 2
fi
program=$(realpath "$1")
here=$(cd "$(dirname "$0")" && pwd)
docs=$here/../docs
mkdir -p "$2/man/man1" "$2/doc/aeadkit" "$2/bash-completion/completions" "$2/zsh/site-functions" "$2/fish/vendor_completions.d"
share=$(cd "$2" && pwd)
version=$("$program" --version)
tab=$(printf '\t')
names=$("$program" help | awk '/^$/ { on = 0 } on && $1 != "help" { print $1 } /^Commands:/ { on = 1 }')

# The paragraphs of a help that begin in one way, or in none of these ways but the first: paragraphs [!]PATTERN [COMMAND]
paragraphs() {
    "$program" help ${2:-} | awk -v RS= -v ORS='\n\n' -v pattern="${1#!}" -v others="${1%%[!!]*}" \
        'others ? NR > 1 && $0 !~ pattern : $0 ~ pattern'
}

# What a help says in sentences.
sentences() {
    paragraphs '!^(Usage|Commands|Arguments|Options|Example|A fault|A vector file|See also)' "${1:-}" | shown
}

# Text as lines of the man page: what stands between backquotes is bold, and what begins with @ is a request.
roff() {
    sed -E -e "s/\\\\/\\\\e/g; s/-/\\\\-/g; s/\^/\\\\(ha/g; s/'/\\\\(aq/g; s/~/\\\\(ti/g" \
        -e 's/`([^`]*)`/\\fB\1\\fR/g' -e 's/^\./\\\&./' -e 's/^@/./'
}

# Text whose indented lines are shown as they are.
shown() {
    awk '
        { now = sub(/^  /, "") }
        now != on { print now ? "@EX" : "@EE"; on = now }
        { print $0 == "" || $0 == "Example:" ? "@PP" : $0 }' | sed '$ d' | roff
}

# The options of all commands, each text once.
options() {
    for name in '' $names; do
        paragraphs '^(Options|Arguments):' $name
    done | awk '
        /^ ? ? ? ? ? ?[-<]/ { sub(/^ +/, ""); sub(/  +/, "\t"); printf "\n%s", $0; next }
        /^ / { sub(/^ +/, "\t"); printf "%s", $0 }' | awk '!seen[$0]++' | LC_ALL=C sort -s -t "$tab" -k 1,1 | awk -F '\t' '
        NF {
            print "@TP\n`" $1 "`\n" $2
            for (i = 3; i <= NF; i++) print ($2 ~ /:$/ ? "@br\n" : "") $i
        }' | roff
}

# The faults of a help, with what stands before and behind them: faults PATTERN [COMMAND]
faults() {
    paragraphs "$@" | awk '
        /^  [A-Z]/ { tag = "@TP\n`" $1 "`"; sub(/^ +[^ ]+ +/, ""); if (/^[0-9]/) { tag = tag " (status " $1 ")"; sub(/^. +/, "") } print tag }
        /^[A-Z]/ { if (tag) print "@PP"; tag = "" }
        { sub(/^ +/, ""); print }' | sed '$ d' | roff
}

{
    echo ".TH AEADKIT 1 \"\" \"$version\" \"User Commands\""
    printf '%s\n' '.ad l' '.nh' '.nr HY 0' # one space between words, and no hyphens at ends of lines
    echo '.SH NAME'
    echo "aeadkit \\- $("$program" help | sed -n '1s/^./\l&/p')"
    echo '.SH SYNOPSIS'
    for name in $names; do
        paragraphs '^Usage: ' $name | sed -n 's/^Usage: \(aeadkit [a-z-]*\)/@HP 4\n`\1`/p' | roff
    done
    echo '.HP 4'
    printf '%s\n' '`aeadkit help` [COMMAND]' | roff
    echo '.SH DESCRIPTION'
    sentences
    for name in $names; do
        echo "@SS $name" | roff
        echo "$("$program" help $name | sed -n 1p)."
        sentences $name
    done
    echo '.SH OPTIONS'
    options
    echo '.SH FILES'
    roff <<'END'
In share/doc/aeadkit:
@TP
`COMMAND.md`
the manual
@TP
`files.sh`
a script that seals and opens files, and keeps the nonce and a label beside each
@TP
`VECTOR-FILES.md`, `published.vectors`, `edges.vectors`
the format of vector files, and published vectors and edges in it
END
    echo '.SH EXIT STATUS'
    faults '^A fault is'
    echo '.SH FAULTS OF A VECTOR FILE'
    faults '^A vector file' check
    echo '.SH EXAMPLES'
    for name in $names; do
        paragraphs '^Example' $name | shown
    done
    echo '.SH SEE ALSO'
    echo '.BR age (1)'
} > "$share/man/man1/aeadkit.1"

# The documents, with those of their links that lead to one of them.
for document in COMMAND.md VECTOR-FILES.md; do
    sed -E -e 's/\]\(((COMMAND\.md|VECTOR-FILES\.md|(published|edges)\.vectors)[^)]*)\)/](<\1>)/g' \
        -e 's/\[([^]]*)\]\([^<)][^)]*\)/\1/g' -e 's/\]\(<([^>]*)>\)/](\1)/g' "$docs/$document" > "$share/doc/aeadkit/$document"
done
cp "$docs/published.vectors" "$docs/edges.vectors" "$here/examples/files.sh" "$share/doc/aeadkit/"
cp "$here/completions/aeadkit.bash" "$share/bash-completion/completions/aeadkit"
cp "$here/completions/_aeadkit" "$share/zsh/site-functions/"
cp "$here/completions/aeadkit.fish" "$share/fish/vendor_completions.d/"
