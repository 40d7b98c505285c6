# Completion of flaskd for bash: put `source docs/completion/flaskd.bash` into your ~/.bashrc.
#
# The first word is a command; generate has three numbers behind it, for which a value in range is offered; flow and enter have a
# version and two types, of which nothing is known here, and learn a version. A file's name may stand last, which the script ./flaskd reads.

_flaskd() {
    local word=${COMP_WORDS[COMP_CWORD]}
    case $COMP_CWORD:${COMP_WORDS[1]} in
        1:*) mapfile -t COMPREPLY < <(compgen -W 'serial threads generate flow enter learn help' -- "$word") ;;
        2:generate) mapfile -t COMPREPLY < <(compgen -W '0 1 7 2147483647' -- "$word") ;;
        3:generate) mapfile -t COMPREPLY < <(compgen -W '1 8 62' -- "$word") ;;
        2:flow | 2:enter | 2:learn) mapfile -t COMPREPLY < <(compgen -W '0' -- "$word") ;;
        4:generate) mapfile -t COMPREPLY < <(compgen -W '1 2000 90000' -- "$word") ;;
        2:serial | 2:threads | 3:learn | 5:flow | 5:enter) mapfile -t COMPREPLY < <(compgen -f -- "$word") ;;
        *) COMPREPLY=() ;;
    esac
}

complete -o filenames -F _flaskd flaskd ./flaskd
