# Completions of flt for fish.
complete -c flt -n __fish_use_subcommand -f -a '(flt --words commands 2> /dev/null)'
complete -c flt -n '__fish_seen_subcommand_from example' -f -a '(flt --words examples 2> /dev/null)'
complete -c flt -n '__fish_seen_subcommand_from example' -l explain
complete -c flt -n '__fish_seen_subcommand_from run build' -a '(flt --words programs 2> /dev/null)'
complete -c flt -n '__fish_seen_subcommand_from help' -f -a '(flt --words commands 2> /dev/null)'
complete -c flt -n '__fish_seen_subcommand_from new' -f -a 'driver filter'
complete -c flt -n '__fish_seen_subcommand_from check' -l junit -l strict -l skip
complete -c flt -n '__fish_seen_subcommand_from explain' -l from -l to
