# Completions of fish for rgo-regions.

function __rgo_regions_files
    __fish_complete_suffix .go | string match -r '.*(?:\.go|/)(?:\t.*)?$'
end

complete -c rgo-regions -f
complete -c rgo-regions -n 'not __fish_prev_arg_in --function --picture --journal --steps --goroutines --pages --page-words --regions' -a '(__rgo_regions_files)'
complete -c rgo-regions -n 'not __fish_contains_opt list warn picture' -l list -d 'Print a line for each event'
complete -c rgo-regions -n 'not __fish_contains_opt list warn picture' -l warn -d 'Print which regions grow with a loop'
complete -c rgo-regions -n 'not __fish_contains_opt function picture' -l function -x -d 'Show only this function'
complete -c rgo-regions -n 'not __fish_contains_opt list warn function picture' -l picture -rF -d 'Draw a run to this file'
complete -c rgo-regions -n '__fish_contains_opt picture; and not __fish_contains_opt journal' -l journal -rF -d 'Draw the run that this file lists'
complete -c rgo-regions -n '__fish_contains_opt picture; and not __fish_contains_opt steps' -l steps -x -d 'End the run after this many steps (1-4398046511104, default 4398046511104)'
complete -c rgo-regions -n '__fish_contains_opt picture; and not __fish_contains_opt goroutines' -l goroutines -x -d 'How many goroutines may be started (1-1000000, default 100000)'
complete -c rgo-regions -n '__fish_contains_opt picture; and not __fish_contains_opt pages' -l pages -x -d 'How many pages may be in use (1-65536, default 4096)'
complete -c rgo-regions -n '__fish_contains_opt picture; and not __fish_contains_opt page-words' -l page-words -x -d 'How many words a page has (16-4096, default 256)'
complete -c rgo-regions -n '__fish_contains_opt picture; and not __fish_contains_opt regions' -l regions -x -d 'How many regions may be live (1-65536, default 65536)'
