# Completion of tcrx for Bash: its commands, their options, and the file behind a redirection.
_tcrx() {
    local current=${COMP_WORDS[COMP_CWORD]} previous=${COMP_WORDS[COMP_CWORD - 1]} word
    local words='run parallel -h --help -V --version'
    COMPREPLY=()
    if [[ $previous == *[\<\>]* ]]; then
        mapfile -t COMPREPLY < <(compgen -f -- "$current")
        compopt -o filenames 2>/dev/null
        return
    fi
    # A number follows.
    [ "$previous" != --scid ] || return 0
    for word in "${COMP_WORDS[@]:1:COMP_CWORD - 1}"; do
        [[ $word != @(run|parallel) ]] || words='--scid -h --help'
    done
    mapfile -t COMPREPLY < <(compgen -W "$words" -- "$current")
}
complete -F _tcrx tcrx
