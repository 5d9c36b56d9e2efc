# Completions of wenc for bash.

_wenc() {
    [[ $COMP_CWORD -gt 1 ]] || mapfile -t COMPREPLY < <(compgen -W list -- "$2")
}

complete -F _wenc wenc
