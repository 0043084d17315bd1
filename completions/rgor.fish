# Completions of fish for rgor.

function __rgor_files
    __fish_complete_suffix .go | string match -r '.*(?:\.go|/)(?:\t.*)?$'
end

complete -c rgor -f
complete -c rgor -n __fish_is_first_token -a '(__rgor_files)'
complete -c rgor -n __fish_is_first_token -l check -d 'Only check the file'
complete -c rgor -n '__fish_seen_argument -l check' -a '(__rgor_files)'
complete -c rgor -n 'not __fish_is_first_token; and not __fish_seen_argument -l check; and not __fish_contains_opt steps' -l steps -x -d 'End the run after this many steps (1-4398046511104, default 4398046511104)'
complete -c rgor -n 'not __fish_is_first_token; and not __fish_seen_argument -l check; and not __fish_contains_opt goroutines' -l goroutines -x -d 'How many goroutines may be started (1-1000000, default 100000)'
complete -c rgor -n 'not __fish_is_first_token; and not __fish_seen_argument -l check; and not __fish_contains_opt pages' -l pages -x -d 'How many pages may be in use (1-65536, default 4096)'
complete -c rgor -n 'not __fish_is_first_token; and not __fish_seen_argument -l check; and not __fish_contains_opt page-words' -l page-words -x -d 'How many words a page has (16-4096, default 256)'
complete -c rgor -n 'not __fish_is_first_token; and not __fish_seen_argument -l check; and not __fish_contains_opt regions' -l regions -x -d 'How many regions may be live (1-65536, default 65536)'
complete -c rgor -n 'not __fish_is_first_token; and not __fish_seen_argument -l check; and not __fish_contains_opt workers' -l workers -x -d 'On how many threads goroutines run (1-64, default 4)'
complete -c rgor -n 'not __fish_is_first_token; and not __fish_seen_argument -l check; and not __fish_contains_opt stats' -l stats -d 'Count regions, pages, objects and goroutines on standard error'
