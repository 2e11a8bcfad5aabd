# Completes the command line of gcflip in fish: a command, then a path.
set -l commands play check report pair threads help
complete -c gcflip -f
complete -c gcflip -s h -l help -d 'Print help'
complete -c gcflip -n "not __fish_seen_subcommand_from $commands" -a play -d 'Plays a trace'
complete -c gcflip -n "not __fish_seen_subcommand_from $commands" -a check -d 'Checks a pair of heaps'
complete -c gcflip -n "not __fish_seen_subcommand_from $commands" -a report -d 'Reports the run of a trace'
complete -c gcflip -n "not __fish_seen_subcommand_from $commands" -a pair -d 'Writes the pair of a flip'
complete -c gcflip -n "not __fish_seen_subcommand_from $commands" -a threads -d 'Runs the mutators of a trace in threads'
complete -c gcflip -n "not __fish_seen_subcommand_from $commands" -a help -d 'Prints help'
complete -c gcflip -n '__fish_seen_subcommand_from play check report pair threads' -F
complete -c gcflip -n '__fish_seen_subcommand_from help' -a 'play check report pair threads'
