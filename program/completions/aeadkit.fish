# Completes the words of aeadkit in fish, by the help that the program prints.
function __aeadkit_help
    set -l words (commandline -opc)
    aeadkit help $words[2] 2> /dev/null | sed '/^Options:/,/^$/!d'
end
# Whether an option is not given yet. The last word is left out where it may be the option whose value comes: __aeadkit_lacks NAME LAST
function __aeadkit_lacks
    set -l words (commandline -opc)
    not string match -qr -- "^--$argv[1](=|\$)" $words[1..$argv[2]]
end
set -l commands (aeadkit help | awk '/^$/ { on = 0 } on { print $1 } /^Commands:/ { on = 1 }')
complete -c aeadkit -f
complete -c aeadkit -n __fish_use_subcommand -a "$commands --help --version"
complete -c aeadkit -n '__fish_seen_subcommand_from help' -a "$commands"
complete -c aeadkit -n '__fish_seen_subcommand_from check' -F
for command in (string match -v help $commands)
    for option in (aeadkit help $command | sed '/^Options:/,/^$/!d' | string match -rg '^ +(?:-h, )?--([a-z-]+ *(?:<[A-Z]+>)?)')
        set -l name (string replace -r '[ <].*' '' $option)
        set -l last (string match -q '*<*' $option; and echo -2; or echo -1)
        set -l begin complete -c aeadkit -n "__fish_seen_subcommand_from $command; and __aeadkit_lacks $name $last" -l $name
        switch $option
            case '*<SUITE>'
                $begin -x -a "(__aeadkit_help | string match -rg '^ +([a-z0-9]+-[a-z0-9-]+) ')"
            case '*<IN>' '*<OUT>' '*FILE>'
                $begin -r -F
            case '*<*'
                $begin -x
            case '*'
                $begin
        end
    end
end
