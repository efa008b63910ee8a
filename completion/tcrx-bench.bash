# Completion of tcrx-bench for Bash: its options, the files of those that take one, and the file behind a redirection.
_tcrx_bench() {
    local current=${COMP_WORDS[COMP_CWORD]} previous=${COMP_WORDS[COMP_CWORD - 1]}
    COMPREPLY=()
    if [[ $previous == *[\<\>]* || $previous == @(--setup|--program|--tcmake|--log|--replay) ]]; then
        mapfile -t COMPREPLY < <(compgen -f -- "$current")
        compopt -o filenames 2>/dev/null
        return
    fi
    case $previous in
        --cltu) mapfile -t COMPREPLY < <(compgen -W 'correct detect' -- "$current") ;;
        --release) mapfile -t COMPREPLY < <(compgen -W 'auto manual' -- "$current") ;;
        # A number, a port or an address follows.
        --scid | --tc-* | --cltu-frames | --lines | --clcw-* | --packets-* | --units-* | --tm-tcp | --tm-udp | --tm-length | --tm-rate | --tm-vcid | --http | --allow | \
            --fill | --period | --release-after | --link-timeout | --sender | --connections | --connections-per-address | --patience | --drop | --twice | --flip | --delay | --drop-clcw | \
            --seed) ;;
        *) mapfile -t COMPREPLY < <(compgen -W '--scid --fecf --setup --program --tcmake --tc-tcp --tc-udp --lines --clcw-tcp --packets-tcp --units-tcp
            --tm-tcp --http --clcw-udp --packets-udp --units-udp --tm-udp --allow --cltu --cltu-frames --randomised --tm-length --tm-rate --tm-vcid --tm-fecf --tm-marker
            --fill --resync --period --release --release-after --link-timeout --sender --connections --connections-per-address --patience --drop --twice --flip --delay --drop-clcw --seed --demo --log --replay -h --help -V --version' -- "$current") ;;
    esac
}
complete -F _tcrx_bench tcrx-bench
