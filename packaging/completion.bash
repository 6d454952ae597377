# bash completion for vtl: it offers the commands and options that vtl's own help has.
_vtl_words() {
    "${COMP_WORDS[0]}" "$@" --help 2>/dev/null | sed -n -e h -e '/^Commands:/,/^$/s/^  \([a-z]*\) .*/\1/p' \
        -e 's/^ *\(-[A-Za-z], \)\?\(--[a-z-]*\).*/\2/p' -e g -e 's/.*\[alias: \(--[a-z-]*\)\].*/\1/p'
}

_vtl() {
    local current=${COMP_WORDS[COMP_CWORD]} command=()
    ((COMP_CWORD > 1)) && command=("${COMP_WORDS[1]}")
    ((COMP_CWORD > 2)) && [[ ${command[0]} == media ]] && command+=("${COMP_WORDS[2]}")
    case ${COMP_WORDS[COMP_CWORD - 1]} in
        --media | --socket | --control | --chap | --config | --records | check | explain) mapfile -t COMPREPLY < <(compgen -f -- "$current") ;;
        *) mapfile -t COMPREPLY < <(compgen -W "$(_vtl_words "${command[@]}")" -- "$current") ;;
    esac
}

complete -o filenames -F _vtl vtl
