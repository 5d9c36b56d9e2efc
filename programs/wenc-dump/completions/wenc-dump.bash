# Completions of wenc-dump for bash.

_wenc_dump() {
    local word=${COMP_WORDS[COMP_CWORD]} option=${COMP_WORDS[COMP_CWORD - 1]} words before
    # behind an option `=` is a word by itself
    if [[ $word == = ]]; then
        word=
    elif [[ $option == = ]]; then
        option=${COMP_WORDS[COMP_CWORD - 2]}
    fi
    for before in "${COMP_WORDS[@]:1:COMP_CWORD-1}"; do
        [[ $before != -- ]] || return 0
    done
    case $option in
        --section)
            words="custom core-module core-instance core-type component instance alias type
                canonical-function start import export function table memory global element code
                data data-count tag"
            ;;
        --color) words="always auto never" ;;
        --width | --at) words="" ;;
        -o | --output) return 0 ;;
        *)
            # other words are files
            [[ $word == -* ]] || return 0
            words="-x --hex --check --section= --summary --at= --wit --html --json --compact"
            words="-o --output= --color= --width= -h --help -V --version $words"
            ;;
    esac
    compopt +o default +o bashdefault
    mapfile -t COMPREPLY < <(compgen -W "$words" -- "$word")
    [[ ${COMPREPLY[*]} != *= ]] || compopt -o nospace
}

complete -o bashdefault -o default -F _wenc_dump wenc-dump
