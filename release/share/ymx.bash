# Completions of ymx for bash.
_ymx() {
    local word=${COMP_WORDS[COMP_CWORD]} previous=${COMP_WORDS[COMP_CWORD - 1]} command='' options
    COMPREPLY=()
    [ "$COMP_CWORD" -lt 2 ] || command=${COMP_WORDS[1]}
    case $command in
    '') options='frames script local remote selftest help --help -h --version -V' ;;
    frames) options='--limit --help -h --version -V' ;;
    script | selftest) options='--help -h --version -V' ;;
    local) options='--listen --peer --bind --keep --links --ping --keepalive --idle --timeout --proxy-protocol --count --from --status --status-anywhere --times --window --verbose -v --help -h --version -V' ;;
    remote) options='--bind --peer --target --keep --peers --ping --keepalive --idle --timeout --from --status --status-anywhere --times --window --workers --verbose -v --help -h --version -V' ;;
    help) options='frames script local remote selftest help' ;;
    *) return ;;
    esac
    # the value of an option is a number or an address
    case $command$previous in
    *=) return ;;
    frames--limit | local--listen | local--peer | local--bind | local--links | local--ping | local--keepalive | local--idle | local--timeout | local--count | local--from | local--status | local--window) return ;;
    remote--bind | remote--peer | remote--target | remote--peers | remote--ping | remote--keepalive | remote--idle | remote--timeout | remote--from | remote--status | remote--window | remote--workers) return ;;
    esac
    case $command,$word in
    frames,-* | script,-*) ;;
    frames,* | script,*)
        compopt -o filenames 2> /dev/null
        mapfile -t COMPREPLY < <(compgen -f -- "$word")
        return
        ;;
    esac
    mapfile -t COMPREPLY < <(compgen -W "$options" -- "$word")
}
complete -F _ymx ymx
