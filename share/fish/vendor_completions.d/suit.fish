# Completion of suit(1) for fish.

complete -c suit -f
complete -c suit -n __fish_use_subcommand -a make -d 'Make an envelope from a description'
complete -c suit -n __fish_use_subcommand -a show -d 'Print a description, or whether an envelope is authentic'
complete -c suit -n __fish_use_subcommand -a check -d 'Say whether a manifest is safe'
complete -c suit -n __fish_use_subcommand -a run -d 'Work with a flash'
complete -c suit -n __fish_use_subcommand -a drill -d 'Try updates and boots on a flash in memory'
complete -c suit -n __fish_use_subcommand -a diag -d 'Print an item of CBOR in diagnostic notation'

set -l commands init update boot status migrate
complete -c suit -n "__fish_seen_subcommand_from run; and not __fish_seen_subcommand_from $commands" -a init -d 'Format a blank flash for a device'
complete -c suit -n "__fish_seen_subcommand_from run; and not __fish_seen_subcommand_from $commands" -a update -d 'Install an envelope'
complete -c suit -n "__fish_seen_subcommand_from run; and not __fish_seen_subcommand_from $commands" -a boot -d 'Start what is installed'
complete -c suit -n "__fish_seen_subcommand_from run; and not __fish_seen_subcommand_from $commands" -a status -d 'Print what is installed'
complete -c suit -n "__fish_seen_subcommand_from run; and not __fish_seen_subcommand_from $commands" -a migrate -d 'Give the flash the second layout'
complete -c suit -n '__fish_seen_subcommand_from make show check init update diag' -F
