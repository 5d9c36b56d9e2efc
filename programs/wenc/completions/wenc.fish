# Completions of wenc for fish.

complete -c wenc -f
complete -c wenc -n __fish_use_subcommand -a list -d 'List the component on standard input'
