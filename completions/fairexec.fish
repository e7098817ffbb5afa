# Completions of fairexec for fish. Copy this file to ~/.config/fish/completions.
# tests/pages compares it with the command line.

# Only the commands that read a text take a file.
complete -c fairexec -f

complete -c fairexec -n __fish_use_subcommand -a run -d 'Run a script, and print what happens as notes'
complete -c fairexec -n __fish_use_subcommand -a threads -d 'Run a script on threads, and print the outcome of each order and the verdict'
complete -c fairexec -n __fish_use_subcommand -a audit -d 'Judge journals, and print whether they are sound or their first fault'
complete -c fairexec -n __fish_use_subcommand -a journal -d 'Read journals as bytes, and print their text'
complete -c fairexec -n __fish_use_subcommand -a help -d 'Print the help of the program or of a command'
complete -c fairexec -n __fish_use_subcommand -s h -l help -d 'Print help'
complete -c fairexec -n __fish_use_subcommand -s V -l version -d 'Print version'

complete -c fairexec -n '__fish_seen_subcommand_from run' -l journal -d 'Print the journals at the end, in place of what happens'
complete -c fairexec -n '__fish_seen_subcommand_from run' -l stats -d 'Print the statistics of each core and queue at the end'
complete -c fairexec -n '__fish_seen_subcommand_from run' -s h -l help -d 'Print help'
complete -c fairexec -n '__fish_seen_subcommand_from run' -F

complete -c fairexec -n '__fish_seen_subcommand_from threads' -l journal -d 'Print the journals behind the outcomes'
complete -c fairexec -n '__fish_seen_subcommand_from threads' -l stats -d 'Print the statistics of each core and queue before the verdict'
complete -c fairexec -n '__fish_seen_subcommand_from threads' -s h -l help -d 'Print help'
complete -c fairexec -n '__fish_seen_subcommand_from threads' -F

complete -c fairexec -n '__fish_seen_subcommand_from audit' -l bytes -d 'Read the journals as bytes'
complete -c fairexec -n '__fish_seen_subcommand_from audit' -l parts -d 'Read the parts in a folder, side by side'
complete -c fairexec -n '__fish_seen_subcommand_from audit' -l follow -d 'Go on as the parts grow, and print a line each second'
complete -c fairexec -n '__fish_seen_subcommand_from audit' -s h -l help -d 'Print help'
complete -c fairexec -n '__fish_seen_subcommand_from audit' -F

complete -c fairexec -n '__fish_seen_subcommand_from journal' -l text -d 'Print the text of the journals'
complete -c fairexec -n '__fish_seen_subcommand_from journal' -s h -l help -d 'Print help'
complete -c fairexec -n '__fish_seen_subcommand_from journal' -F

complete -c fairexec -n '__fish_seen_subcommand_from help' -a 'run threads audit journal help'
