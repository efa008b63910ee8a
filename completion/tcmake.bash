# Completion of tcmake for Bash: its options, and the file behind a redirection.
_tcmake() {
    local current=${COMP_WORDS[COMP_CWORD]} previous=${COMP_WORDS[COMP_CWORD - 1]}
    COMPREPLY=()
    if [[ $previous == *[\<\>]* ]]; then
        mapfile -t COMPREPLY < <(compgen -f -- "$current")
        compopt -o filenames 2>/dev/null
        return
    fi
    mapfile -t COMPREPLY < <(compgen -W '--fecf --strict -h --help -V --version' -- "$current")
}
complete -F _tcmake tcmake
