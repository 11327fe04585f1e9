# Completion for binfarce in bash: the commands and options that `binfarce --help` and `binfarce COMMAND --help` show, values, files,
# and the names of a file's sections.
_binfarce() {
    local word=${COMP_WORDS[COMP_CWORD]} before=${COMP_WORDS[COMP_CWORD - 1]} command=${COMP_WORDS[1]} options= values= name=
    [ "$before" != = ] || before=${COMP_WORDS[COMP_CWORD - 2]}
    [ "$word" != = ] || word=
    # --first=N, --json, ..
    [ "$COMP_CWORD" -eq 1 ] && command=
    options=$(binfarce ${command:+"$command"} --help 2>/dev/null | sed -n 's/^  \(-[^-].*, \)\{0,1\}\(--[^ ]*\) .*/\2/p')
    case $command,$COMP_CWORD in
        ,* | help,*) values="help $(binfarce --help 2>/dev/null | sed -n 's/^  \([a-z]\{1,\}\) .*/\1/p')" ;;
    esac
    case $before in
        --sort) values="address size name" ;;
        --by) values="crate function function-section generic module section" ;;
        -?*) [[ $before != -n && " "${options//$'\n'/ } != *" $before="[^F]* ]] || return ;;
    esac
    case $word in
        -*)
            COMPREPLY=($(compgen -W "$(printf '%s\n' "$options" | sed 's/=.*/=/')" -- "$word"))
            [[ ${COMPREPLY[*]} != *= ]] || compopt -o nospace
            ;;
        *)
            if [ "$command,$COMP_CWORD" = section,3 ] && [[ $before != -* ]]; then
                # `compgen -W` would run a section's name as a command, and so would the line if the name weren't quoted.
                while read -r name; do
                    [[ -z $name || $name != "$word"* ]] || COMPREPLY+=("$(printf %q "$name")")
                done < <(binfarce section "$before" 2>/dev/null | awk '{ print $4 }')
                return
            fi
            COMPREPLY=($(compgen -W "$values" -- "$word"))
            [ -n "$values" ] || { compopt -o filenames && mapfile -t COMPREPLY < <(compgen -f -- "$word"); }
            ;;
    esac
}
complete -F _binfarce binfarce
