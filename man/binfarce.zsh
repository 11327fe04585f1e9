#compdef binfarce
# Completion for binfarce in zsh: the commands and options that `binfarce --help` and `binfarce COMMAND --help` show, values, files,
# and the names of a file's sections.
local -a commands options
local line option text values
if [[ $CURRENT -eq 2 || $words[2] == help ]]; then
    # A command's words are on its line, or on the next one.
    commands=(${(f)"$(binfarce --help 2>/dev/null | sed -n '/^  [a-z]/ { /[^ ]  /!N; s/\n/  /; s/^  \([a-z]*\) .*  /\1:/p; }' |
        awk -F: '!seen[$1]++')"} 'help:help on a command')
    _describe command commands
    [[ $PREFIX != -* ]] || compadd -- --help --version
elif [[ $CURRENT -eq 4 && $words[2] == section && $words[3] != -* && $PREFIX != -* ]]; then
    compadd -- $(binfarce section ${(Q)words[3]} 2>/dev/null | awk '{ print $4 }')
else
    # --first=N the N largest sums, --json each sum as a JSON object, ..
    for line in ${(f)"$(binfarce $words[2] --help 2>/dev/null | sed -n 's/^  \(-[^-].*, \)\{0,1\}\(--[^ ]*\)  *\(.*\)/\2 \3/p')"}; do
        option=${line%% *} text=${${line#* }//(#m)[\[\]:\\]/\\$MATCH}
        case $option in
            --sort=*) values='(address size name)' ;;
            --by=*) values='(crate function function-section generic module section)' ;;
            *=FILE) values=_files ;;
            *) values=' ' ;;
        esac
        case $option in
            *=*) options+=("${option%%=*}=[$text]:${option#*=}:$values") ;;
            *) options+=("${option}[$text]") ;;
        esac
    done
    shift words
    (( CURRENT-- ))
    _arguments -S : $options '*:file:_files'
fi
