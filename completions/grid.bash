# Completes the words of grid in bash: source this file, or put it where bash-completion
# looks, as grid in ~/.local/share/bash-completion/completions. Written by
# tools/completions.
_grid_offers() {
    mapfile -t COMPREPLY < <(compgen "$@" -- "${COMP_WORDS[COMP_CWORD]}")
}
_grid() {
    local before=${COMP_WORDS[COMP_CWORD-1]} command=${COMP_WORDS[1]} options takes
    COMPREPLY=()
    if [ "$COMP_CWORD" -eq 1 ]; then
        _grid_offers -W 'init put get check verify repair scrub status serve world cap help --help --version'
        return
    fi
    case $command in
    init)
        options='--servers --server --replace --add --adopt --secret-file --k --n --happy --segment --verbose --help'
        case $before in
        --secret-file) _grid_offers -f; return ;;
        --servers|--server|--replace|--add|--k|--n|--happy|--segment) return ;;
        esac
        takes=d ;;
    put)
        options='--files-from --files0-from --since --grid --k --happy --n --segment --servers --secret --secret-file --net --no-sync --mend --quiet --known --verbose --help'
        case $before in
        --grid) _grid_offers -d; return ;;
        --files-from|--files0-from|--since|--secret-file) _grid_offers -f; return ;;
        --k|--happy|--n|--segment|--servers|--secret) return ;;
        esac
        takes=f ;;
    get)
        options='--grid --from --to --output --cap-file --caps --into --overwrite --net --known --verbose --help'
        case $before in
        --grid|--into) _grid_offers -d; return ;;
        -o|--output|--cap-file|--caps) _grid_offers -f; return ;;
        --from|--to) return ;;
        esac
        takes=f ;;
    check)
        options='--grid --cap-file --caps --net --json --strict --known --verbose --help'
        case $before in
        --grid) _grid_offers -d; return ;;
        --cap-file|--caps) _grid_offers -f; return ;;
        esac
        takes=f ;;
    verify)
        options='--cap-file --caps --into --segment --secret --secret-file --grid --verbose --help'
        case $before in
        --into|--grid) _grid_offers -d; return ;;
        --cap-file|--caps|--secret-file) _grid_offers -f; return ;;
        --segment|--secret) return ;;
        esac
        takes=f ;;
    repair)
        options='--grid --cap-file --caps --happy --net --no-sync --mend --known --verbose --help'
        case $before in
        --grid) _grid_offers -d; return ;;
        --cap-file|--caps) _grid_offers -f; return ;;
        --happy) return ;;
        esac
        takes=f ;;
    scrub)
        options='--grid --set-aside --remove-open --remove-damaged --json --known --verbose --help'
        case $before in
        --grid) _grid_offers -d; return ;;
        esac
        takes= ;;
    status)
        options='--grid --json --known --verbose --help'
        case $before in
        --grid) _grid_offers -d; return ;;
        esac
        takes= ;;
    serve)
        options='--listen --anyone --room --mark --no-sync --verbose --help'
        case $before in
        --listen|--room|--mark) return ;;
        esac
        takes=d ;;
    world)
        options='--help'
        case $before in
        esac
        takes=f ;;
    cap)
        options='--help'
        case $before in
        esac
        takes= ;;
    help)
        _grid_offers -W 'init put get check verify repair scrub status serve world cap'
        return ;;
    esac
    case ${COMP_WORDS[COMP_CWORD]} in
    -*) _grid_offers -W "$options" ;;
    *) [ -z "$takes" ] || _grid_offers "-$takes" ;;
    esac
}
complete -o filenames -F _grid grid
