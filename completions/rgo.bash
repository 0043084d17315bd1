# Completions of bash for rgo, rgor and rgo-regions.

# Offers these words, but none that another word of the line is already.
_rgo_words() {
    local word k
    for word in "$@"; do
        for k in "${!COMP_WORDS[@]}"; do
            ((k != COMP_CWORD)) && [[ ${COMP_WORDS[k]} == "$word" ]] && continue 2
        done
        COMPREPLY+=($(compgen -W "$word" -- "${COMP_WORDS[COMP_CWORD]}"))
    done
}

# Offers folders and the files with an ending, or Go files.
_rgo_files() {
    compopt -o filenames 2>/dev/null
    local IFS=$'\n'
    COMPREPLY=($(compgen -f -X "!*.${1:-go}" -- "${COMP_WORDS[COMP_CWORD]}") $(compgen -d -- "${COMP_WORDS[COMP_CWORD]}"))
}

# Whether another word of the line is one of these.
_rgo_has() {
    local word k
    for word in "$@"; do
        for k in "${!COMP_WORDS[@]}"; do
            ((k != COMP_CWORD)) && [[ ${COMP_WORDS[k]} == "$word" ]] && return 0
        done
    done
    return 1
}

# Offers the options of a run, but not where the number of one is expected.
_rgo_run_options() {
    local last=${COMP_WORDS[COMP_CWORD - 1]}
    if [[ $last != --* || $last == --stats ]]; then
        _rgo_words --steps --goroutines --pages --page-words --regions --workers --stats
    fi
}

_rgo() {
    COMPREPLY=()
    if ((COMP_CWORD == 1)); then
        _rgo_words run check emit code big record replay runcode
    elif [[ ${COMP_WORDS[1]} == run || ${COMP_WORDS[1]} == runcode ]]; then
        _rgo_run_options
    elif [[ ${COMP_WORDS[1]} == record ]]; then
        [[ ${COMP_WORDS[COMP_CWORD - 1]} == --* ]] || _rgo_words --steps --goroutines --pages --page-words --regions
    fi
}

_rgor() {
    COMPREPLY=()
    local file=1
    [[ ${COMP_WORDS[1]} == --check ]] && file=2
    if ((COMP_CWORD == 1)) && [[ ${COMP_WORDS[1]} == -* ]]; then
        _rgo_words --check
    elif ((COMP_CWORD == file)); then
        _rgo_files
    elif ((file == 1)); then
        _rgo_run_options
    fi
}

_rgo-regions() {
    COMPREPLY=()
    local last=${COMP_WORDS[COMP_CWORD - 1]}
    if [[ ${COMP_WORDS[COMP_CWORD]} == -* ]]; then
        if _rgo_has --picture; then
            _rgo_words --journal --steps --goroutines --pages --page-words --regions
        elif _rgo_has --list; then
            _rgo_words --list --function
        elif _rgo_has --warn; then
            _rgo_words --warn --function
        elif _rgo_has --function; then
            _rgo_words --list --warn --function
        else
            _rgo_words --list --warn --function --picture
        fi
    elif [[ $last == --picture ]]; then
        _rgo_files svg
    elif [[ $last == --journal ]]; then
        _rgo_files picks
    elif [[ $last != --* || $last == --list || $last == --warn ]]; then
        _rgo_files
    fi
}

complete -F _rgo rgo
complete -F _rgor rgor
complete -F _rgo-regions rgo-regions
