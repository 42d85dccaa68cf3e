# Completion for bash: scanboot's commands, the options of each, byte orders, codes to explain, and files.
_scanboot() {
    local commands='convert list blocks load check stats map inspect explain help'
    local word=${COMP_WORDS[COMP_CWORD]} before=${COMP_WORDS[COMP_CWORD - 1]} command='' options='' i
    # bash takes --option=value for three words
    if [[ $word == '=' ]]; then
        word=''
    elif [[ $before == '=' ]]; then
        before=${COMP_WORDS[COMP_CWORD - 2]}
    fi
    for ((i = 1; i < COMP_CWORD && ${#command} == 0; i++)); do
        [[ ${COMP_WORDS[i]} == -* ]] || command=${COMP_WORDS[i]}
    done
    case $command in
    '') options='--version' ;;
    convert) options='-o --output --skip --order --c-array' ;;
    blocks) options='--order --json' ;;
    list | stats | inspect) options='--skip --json' ;;
    load) options='--coff --skip --order --base --size --fill -o --output' ;;
    check) options='--skip --order --all --json' ;;
    map) options='--skip --order -o --output' ;;
    esac
    COMPREPLY=()
    case $before in
    -o | --output) compopt -o default ;; # files, as bash itself completes them
    --order) mapfile -t COMPREPLY < <(compgen -W '0 1 2 3 big' -- "$word") ;;
    --skip | --c-array | --base | --size | --fill) ;;
    *)
        if [[ $word == -* ]]; then
            mapfile -t COMPREPLY < <(compgen -W "$options --help" -- "$word")
        elif [[ -z $command || $command == help ]]; then
            mapfile -t COMPREPLY < <(compgen -W "$commands" -- "$word")
        elif [[ $command == explain ]]; then
            mapfile -t COMPREPLY < <(compgen -W "$(echo {0..17} {20..30} 33 40 41)" -- "$word")
        else
            compopt -o default
        fi
        ;;
    esac
}
complete -F _scanboot scanboot
