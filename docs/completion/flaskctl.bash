# Completion of flaskctl for bash: put `source docs/completion/flaskctl.bash` into your ~/.bashrc.
#
# The first word is a command, the second a file. Versions and types are those of the file, of which nothing is known here; the class is one of five.

_flaskctl() {
    local word=${COMP_WORDS[COMP_CWORD]} options='--json'
    # An option may stand anywhere behind the command.
    if [[ $COMP_CWORD -gt 1 && $word == -* ]]; then
        [ "${COMP_WORDS[1]}" != show ] || options='--svg --json'
        mapfile -t COMPREPLY < <(compgen -W "$options" -- "$word")
        return
    fi
    case $COMP_CWORD:${COMP_WORDS[1]} in
        1:*) mapfile -t COMPREPLY < <(compgen -W 'check ask who diff why show help' -- "$word") ;;
        2:check | 2:ask | 2:who | 2:diff | 2:why | 2:show) mapfile -t COMPREPLY < <(compgen -f -- "$word") ;;
        3:show) mapfile -t COMPREPLY < <(compgen -W '--svg --json' -- "$word") ;;
        3:ask | 3:who | 3:diff | 4:diff) mapfile -t COMPREPLY < <(compgen -W '0 1' -- "$word") ;;
        6:ask | 5:who) mapfile -t COMPREPLY < <(compgen -W 'file dir process port security' -- "$word") ;;
        *) COMPREPLY=() ;;
    esac
}

complete -o filenames -F _flaskctl flaskctl ./flaskctl
