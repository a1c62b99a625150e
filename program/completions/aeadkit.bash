# Completes the words of aeadkit in bash, by the help that the program prints.
_aeadkit() {
    local word=${COMP_WORDS[COMP_CWORD]} option=${COMP_WORDS[COMP_CWORD-1]} help words= files= given
    COMPREPLY=()
    # Readline cuts words at =, so that --suite=aes is three words.
    if [ "$word" = = ]; then
        word=
    elif [ "$option" = = ]; then
        option=${COMP_WORDS[COMP_CWORD-2]}
    fi
    if [ "$COMP_CWORD" = 1 ] || [ "$COMP_CWORD:$option" = 2:help ]; then
        words=$(aeadkit help 2> /dev/null | awk '/^$/ { on = 0 } on { print $1 } /^Commands:/ { on = 1 }')
        [ "$COMP_CWORD" != 1 ] || words="$words --help --version"
    else
        help=$(aeadkit help "${COMP_WORDS[1]}" 2> /dev/null | sed '/^Options:/,/^$/!d')
        given=("${COMP_WORDS[@]:0:COMP_CWORD}" "${COMP_WORDS[@]:COMP_CWORD+1}")
        case $option in
        --suite) words=$(sed -nE 's/^ +([a-z0-9]+-[a-z0-9-]+) .*/\1/p' <<< "$help") ;;
        --in | --out) files=yes ;;
        *) [[ $help == *" $option <"* ]] || words=$(sed -nE 's/^ +(-h, )?(--[a-z-]+).*/\2/p' <<< "$help" |
            grep -vxF "$(printf '%s\n' "${given[@]%%=*}")")
            [ "${COMP_WORDS[1]}" != check ] || files=yes ;;
        esac
    fi
    [ -z "$words" ] || mapfile -t COMPREPLY < <(compgen -W "$words" -- "$word")
    if [ -n "$files" ]; then
        compopt -o filenames
        mapfile -t -O "${#COMPREPLY[@]}" COMPREPLY < <(compgen -f -- "$word")
    fi
}
complete -F _aeadkit aeadkit
