# Completions of fish for rgo.

complete -c rgo -f
complete -c rgo -n __fish_use_subcommand -a run -d 'Run the program on standard input'
complete -c rgo -n __fish_use_subcommand -a check -d 'Check the program on standard input'
complete -c rgo -n __fish_use_subcommand -a emit -d 'Print the code of the program on standard input'
complete -c rgo -n __fish_use_subcommand -a code -d 'Check the code text on standard input'
complete -c rgo -n __fish_use_subcommand -a big -d 'Run a large program with this many goroutines (1-10000)'
complete -c rgo -n __fish_use_subcommand -a record -d 'Run the program on standard input and write its journal to standard error'
complete -c rgo -n __fish_use_subcommand -a replay -d 'Replay the journal on standard input on the program that follows it'
complete -c rgo -n __fish_use_subcommand -a runcode -d 'Run the code text on standard input'
complete -c rgo -n '__fish_seen_subcommand_from run record runcode; and not __fish_contains_opt steps' -l steps -x -d 'End the run after this many steps (1-4398046511104, default 4398046511104)'
complete -c rgo -n '__fish_seen_subcommand_from run record runcode; and not __fish_contains_opt goroutines' -l goroutines -x -d 'How many goroutines may be started (1-1000000, default 100000)'
complete -c rgo -n '__fish_seen_subcommand_from run record runcode; and not __fish_contains_opt pages' -l pages -x -d 'How many pages may be in use (1-65536, default 4096)'
complete -c rgo -n '__fish_seen_subcommand_from run record runcode; and not __fish_contains_opt page-words' -l page-words -x -d 'How many words a page has (16-4096, default 256)'
complete -c rgo -n '__fish_seen_subcommand_from run record runcode; and not __fish_contains_opt regions' -l regions -x -d 'How many regions may be live (1-65536, default 65536)'
complete -c rgo -n '__fish_seen_subcommand_from run runcode; and not __fish_contains_opt workers' -l workers -x -d 'On how many threads goroutines run (1-64, default 4)'
complete -c rgo -n '__fish_seen_subcommand_from run runcode; and not __fish_contains_opt stats' -l stats -d 'Count regions, pages, objects and goroutines on standard error'
