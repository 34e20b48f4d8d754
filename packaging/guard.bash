# Completion of guard for bash.
_guard() {
    local word=${COMP_WORDS[COMP_CWORD]} before=${COMP_WORDS[COMP_CWORD - 1]} options
    COMPREPLY=()
    if [ "$COMP_CWORD" -eq 1 ]; then
        mapfile -t COMPREPLY < <(compgen -W "validate check drill test rulegen parse-tree" -- "$word")
        return
    fi
    case $before in
        --rules | --data | --params | --proof | --tests)
            compopt -o filenames
            mapfile -t COMPREPLY < <(compgen -f -- "$word")
            return
            ;;
        --count) return ;;
    esac
    case ${COMP_WORDS[1]} in
        validate) options="--rules --data --params --evidence" ;;
        check) options="--rules --data --params --proof" ;;
        drill) options="--count" ;;
        test) options="--rules --tests" ;;
        rulegen) options="--data" ;;
        parse-tree) options="--rules" ;;
        *) return ;;
    esac
    mapfile -t COMPREPLY < <(compgen -W "$options" -- "$word")
}
complete -F _guard guard
