# Completes the command line of gcflip in bash: a command, then a path.
_gcflip() {
    local word=${COMP_WORDS[COMP_CWORD]} command=${COMP_WORDS[1]}
    COMPREPLY=()
    if [ "$COMP_CWORD" -eq 1 ]; then
        COMPREPLY=($(compgen -W "play check report pair threads help --help" -- "$word"))
        return
    fi
    case $command in
        help) [ "$COMP_CWORD" -eq 2 ] && COMPREPLY=($(compgen -W "play check report pair threads" -- "$word")) ;;
        play | check | report | pair | threads)
            case $word in
                -*) COMPREPLY=($(compgen -W "--help" -- "$word")) ;;
                *) [ "$COMP_CWORD" -eq 2 ] && mapfile -t COMPREPLY < <(compgen -f -- "$word") ;;
            esac
            ;;
    esac
}
complete -o filenames -F _gcflip gcflip
