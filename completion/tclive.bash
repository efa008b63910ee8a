# Completion of tclive for Bash: its options, and the file behind a redirection.
_tclive() {
    local current=${COMP_WORDS[COMP_CWORD]} previous=${COMP_WORDS[COMP_CWORD - 1]}
    COMPREPLY=()
    if [[ $previous == *[\<\>]* ]]; then
        mapfile -t COMPREPLY < <(compgen -f -- "$current")
        compopt -o filenames 2>/dev/null
        return
    fi
    # A number follows.
    [ "$previous" != --scid ] || return 0
    mapfile -t COMPREPLY < <(compgen -W '--scid --fecf -h --help -V --version' -- "$current")
}
complete -F _tclive tclive
