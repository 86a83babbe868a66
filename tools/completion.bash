# Completes the words of wnt in bash: the commands first, then files; behind help the commands again.
_wnt() {
    local commands='resolve check show draw explain moved diff verify convert sheet anonymise mend unresolve batch rows form help --help --version'
    local word=${COMP_WORDS[COMP_CWORD]}
    if [ "$COMP_CWORD" -eq 1 ]; then
        mapfile -t COMPREPLY < <(compgen -W "$commands" -- "$word")
    elif [ "${COMP_WORDS[1]}" = help ]; then
        COMPREPLY=()
        if [ "$COMP_CWORD" -eq 2 ]; then mapfile -t COMPREPLY < <(compgen -W "${commands%% --*}" -- "$word"); fi
    elif [ "${word#--}" != "$word" ]; then
        local options=''
        case ${COMP_WORDS[1]} in
        resolve) options='--shared' ;;
        check) options='--json' ;;
        draw) options='--names' ;;
        show | explain | moved | sheet | verify) options='--names --json' ;;
        diff) options='--places --fresh --names --json' ;;
        esac
        mapfile -t COMPREPLY < <(compgen -W "$options" -- "$word")
    else
        mapfile -t COMPREPLY < <(compgen -f -- "$word")
    fi
}
complete -o filenames -F _wnt wnt
