# Completions of fairview for fish. Copy this file to ~/.config/fish/completions.
# tests/pages compares it with the command line.

# Only the commands that read a text take a file.
complete -c fairview -f

complete -c fairview -n __fish_use_subcommand -a wait -d 'Print how long the jobs of each core waited and ran'
complete -c fairview -n __fish_use_subcommand -a share -d 'Print what each queue got, and what it should have got'
complete -c fairview -n __fish_use_subcommand -a why -d 'Print all that the journals tell of one submission'
complete -c fairview -n __fish_use_subcommand -a csv -d 'Print a row with commas for each poll'
complete -c fairview -n __fish_use_subcommand -a gantt -d 'Draw the polls of each core on its clock, as SVG'
complete -c fairview -n __fish_use_subcommand -a lag -d 'Draw how far each two queues were apart, as SVG'
complete -c fairview -n __fish_use_subcommand -a trace -d 'Print the run in the trace event format'
complete -c fairview -n __fish_use_subcommand -a help -d 'Print the help of the program or of a command'
complete -c fairview -n __fish_use_subcommand -s h -l help -d 'Print help'
complete -c fairview -n __fish_use_subcommand -s V -l version -d 'Print version'

complete -c fairview -n '__fish_seen_subcommand_from wait' -l plain -d 'Draw the bars in ASCII'
complete -c fairview -n '__fish_seen_subcommand_from wait' -l bytes -d 'Read the journals as bytes'
complete -c fairview -n '__fish_seen_subcommand_from wait' -l parts -d 'Read the parts in a folder'
complete -c fairview -n '__fish_seen_subcommand_from wait' -s h -l help -d 'Print help'
complete -c fairview -n '__fish_seen_subcommand_from wait' -F

complete -c fairview -n '__fish_seen_subcommand_from share' -l plain -d 'Draw the bars in ASCII'
complete -c fairview -n '__fish_seen_subcommand_from share' -l csv -d 'Print rows with commas and no bars'
complete -c fairview -n '__fish_seen_subcommand_from share' -l bytes -d 'Read the journals as bytes'
complete -c fairview -n '__fish_seen_subcommand_from share' -l parts -d 'Read the parts in a folder'
complete -c fairview -n '__fish_seen_subcommand_from share' -s h -l help -d 'Print help'
complete -c fairview -n '__fish_seen_subcommand_from share' -F

complete -c fairview -n '__fish_seen_subcommand_from why' -l bytes -d 'Read the journals as bytes'
complete -c fairview -n '__fish_seen_subcommand_from why' -l parts -d 'Read the parts in a folder'
complete -c fairview -n '__fish_seen_subcommand_from why' -s h -l help -d 'Print help'
complete -c fairview -n '__fish_seen_subcommand_from why' -F

complete -c fairview -n '__fish_seen_subcommand_from csv' -l bytes -d 'Read the journals as bytes'
complete -c fairview -n '__fish_seen_subcommand_from csv' -l parts -d 'Read the parts in a folder'
complete -c fairview -n '__fish_seen_subcommand_from csv' -s h -l help -d 'Print help'
complete -c fairview -n '__fish_seen_subcommand_from csv' -F

complete -c fairview -n '__fish_seen_subcommand_from gantt' -l core -x -d 'Draw the core of this number alone'
complete -c fairview -n '__fish_seen_subcommand_from gantt' -l from -x -d 'The first turn that is drawn'
complete -c fairview -n '__fish_seen_subcommand_from gantt' -l to -x -d 'The last turn that is drawn'
complete -c fairview -n '__fish_seen_subcommand_from gantt' -l bytes -d 'Read the journals as bytes'
complete -c fairview -n '__fish_seen_subcommand_from gantt' -l parts -d 'Read the parts in a folder'
complete -c fairview -n '__fish_seen_subcommand_from gantt' -s h -l help -d 'Print help'
complete -c fairview -n '__fish_seen_subcommand_from gantt' -F

complete -c fairview -n '__fish_seen_subcommand_from lag' -l text -d 'Print a line for each pair of queues'
complete -c fairview -n '__fish_seen_subcommand_from lag' -l bytes -d 'Read the journals as bytes'
complete -c fairview -n '__fish_seen_subcommand_from lag' -l parts -d 'Read the parts in a folder'
complete -c fairview -n '__fish_seen_subcommand_from lag' -s h -l help -d 'Print help'
complete -c fairview -n '__fish_seen_subcommand_from lag' -F

complete -c fairview -n '__fish_seen_subcommand_from trace' -l bytes -d 'Read the journals as bytes'
complete -c fairview -n '__fish_seen_subcommand_from trace' -l parts -d 'Read the parts in a folder'
complete -c fairview -n '__fish_seen_subcommand_from trace' -s h -l help -d 'Print help'
complete -c fairview -n '__fish_seen_subcommand_from trace' -F

complete -c fairview -n '__fish_seen_subcommand_from help' -a 'wait share why csv gantt lag trace help'
