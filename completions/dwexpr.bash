# Completion of dwexpr's words in bash. Source it, or copy it as dwexpr to a folder of bash-completion.
_dwexpr() {
    local choices=
    case $COMP_CWORD in
        1) choices='eval trace ops --help --version' ;;
        2) choices='1 2 3 4 5 6 7 8' ;;
        3) choices='4 8' ;;
        4) choices='2 3 4 5' ;;
        5) choices='le be' ;;
    esac
    if ((COMP_CWORD > 1)) && [[ ${COMP_WORDS[1]} == -* ]]; then
        choices=
    fi
    mapfile -t COMPREPLY < <(compgen -W "$choices" -- "${COMP_WORDS[COMP_CWORD]}")
}
complete -F _dwexpr dwexpr
