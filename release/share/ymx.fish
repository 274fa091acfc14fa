# Completions of ymx for fish.
set -l commands frames script local remote selftest help

complete -c ymx -f
complete -c ymx -s V -l version -d 'Print the version'
complete -c ymx -s h -l help -d 'Print help'

complete -c ymx -n "not __fish_seen_subcommand_from $commands" -a frames -d 'Print the yamux frames of a file'
complete -c ymx -n "not __fish_seen_subcommand_from $commands" -a script -d 'Run steps of two sessions joined by pipes'
complete -c ymx -n "not __fish_seen_subcommand_from $commands" -a local -d 'Forward local connections through a session'
complete -c ymx -n "not __fish_seen_subcommand_from $commands" -a remote -d 'Connect the streams of a session to a target'
complete -c ymx -n "not __fish_seen_subcommand_from $commands" -a selftest -d 'Run both ends and an echo server in one process'
complete -c ymx -n "not __fish_seen_subcommand_from $commands" -a help -d 'Print help'
complete -c ymx -n '__fish_seen_subcommand_from help' -a "$commands"

complete -c ymx -n '__fish_seen_subcommand_from frames script' -F
complete -c ymx -n '__fish_seen_subcommand_from frames' -l limit -x -d 'The longest payload accepted, in bytes'

complete -c ymx -n '__fish_seen_subcommand_from local' -l listen -x -d 'Accept users at this address'
complete -c ymx -n '__fish_seen_subcommand_from local' -l peer -x -d 'Where the ymx remote listens'
complete -c ymx -n '__fish_seen_subcommand_from local' -l bind -x -d 'Where it listens for the ymx remote'
complete -c ymx -n '__fish_seen_subcommand_from local' -l keep -d 'Reconnect after the link is lost'
complete -c ymx -n '__fish_seen_subcommand_from local' -l links -x -d 'Connections to the peer'
complete -c ymx -n '__fish_seen_subcommand_from local' -l ping -x -d 'Ping after so many seconds of silence'
complete -c ymx -n '__fish_seen_subcommand_from local' -l keepalive -x -d 'TCP keepalive: idle seconds before the first probe'
complete -c ymx -n '__fish_seen_subcommand_from local' -l idle -x -d 'Idle timeout of a connection, in seconds'
complete -c ymx -n '__fish_seen_subcommand_from local' -l timeout -x -d 'Connect timeout, in seconds'
complete -c ymx -n '__fish_seen_subcommand_from local' -l proxy-protocol -d 'Send a PROXY protocol v1 header on each stream'
complete -c ymx -n '__fish_seen_subcommand_from local' -l count -x -d 'Exit after N connections'
complete -c ymx -n '__fish_seen_subcommand_from local' -l from -x -d 'Accept peers only from this network'
complete -c ymx -n '__fish_seen_subcommand_from local' -l status -x -d 'Serve metrics and health at this address'
complete -c ymx -n '__fish_seen_subcommand_from local' -l status-anywhere -d 'Allow a --status address other than loopback'
complete -c ymx -n '__fish_seen_subcommand_from local' -l times -d 'Prefix log lines with the time'
complete -c ymx -n '__fish_seen_subcommand_from local' -l window -x -d 'Receive window per stream, in bytes'
complete -c ymx -n '__fish_seen_subcommand_from local' -s v -l verbose -d 'Log listening addresses, peers and connections'

complete -c ymx -n '__fish_seen_subcommand_from remote' -l bind -x -d 'Where it listens for the ymx local'
complete -c ymx -n '__fish_seen_subcommand_from remote' -l peer -x -d 'Where the ymx local listens for it'
complete -c ymx -n '__fish_seen_subcommand_from remote' -l target -x -d 'Where each stream is connected to'
complete -c ymx -n '__fish_seen_subcommand_from remote' -l keep -d 'Accept the next peer after one has gone'
complete -c ymx -n '__fish_seen_subcommand_from remote' -l peers -x -d 'Most peers at once'
complete -c ymx -n '__fish_seen_subcommand_from remote' -l ping -x -d 'Ping after so many seconds of silence'
complete -c ymx -n '__fish_seen_subcommand_from remote' -l keepalive -x -d 'TCP keepalive: idle seconds before the first probe'
complete -c ymx -n '__fish_seen_subcommand_from remote' -l idle -x -d 'Idle timeout of a connection, in seconds'
complete -c ymx -n '__fish_seen_subcommand_from remote' -l timeout -x -d 'Connect timeout, in seconds'
complete -c ymx -n '__fish_seen_subcommand_from remote' -l from -x -d 'Accept peers only from this network'
complete -c ymx -n '__fish_seen_subcommand_from remote' -l status -x -d 'Serve metrics and health at this address'
complete -c ymx -n '__fish_seen_subcommand_from remote' -l status-anywhere -d 'Allow a --status address other than loopback'
complete -c ymx -n '__fish_seen_subcommand_from remote' -l times -d 'Prefix log lines with the time'
complete -c ymx -n '__fish_seen_subcommand_from remote' -l window -x -d 'Receive window per stream, in bytes'
complete -c ymx -n '__fish_seen_subcommand_from remote' -l workers -x -d 'Most streams at once'
complete -c ymx -n '__fish_seen_subcommand_from remote' -s v -l verbose -d 'Log listening addresses, peers and connections'
