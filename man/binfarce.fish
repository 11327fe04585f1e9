# Completion for binfarce in fish: the commands and options that `binfarce --help` and `binfarce COMMAND --help` show, values, files,
# and the names of a file's sections.
set -l commands (binfarce --help 2>/dev/null | string match -rg '^  ([a-z]+) ' | sort -u)
complete -c binfarce -n "not __fish_seen_subcommand_from $commands help" -f -a "$commands help"
complete -c binfarce -n "not __fish_seen_subcommand_from $commands help" -l help -l version
complete -c binfarce -n "__fish_seen_subcommand_from help" -f -a "$commands"
for command in $commands
    for line in (binfarce $command --help 2>/dev/null | string match -re '^  (?:-[^-].*, )?--')
        # --first=N the N largest sums, --json each sum as a JSON object, ..
        set -l parts (string match -rg -- '^  (?:-[^-].*, )?--([a-z-]+)=?([A-Z]*) +(.*)' $line)
        set -l option -l $parts[1] -d "$parts[3]"
        switch "$parts[1] $parts[2]"
            case 'sort *'
                set -a option -x -a "address size name"
            case 'by *'
                set -a option -x -a "crate function function-section generic module section"
            case '* FILE'
                set -a option -r -F
            case '* ?*'
                set -a option -x
        end
        complete -c binfarce -n "__fish_seen_subcommand_from $command" $option
    end
end
complete -c binfarce -f \
    -n "__fish_seen_subcommand_from section; and test (count (commandline -opc)) -eq 3; and not string match -q -- '-*' (commandline -opc)[3]" \
    -a "(binfarce section (commandline -opc)[3] 2>/dev/null | awk '{ print \$4 }')"
