# Completions of fairview for bash. Source this file, or copy it to ~/.local/share/bash-completion/completions/fairview.
# tests/pages compares it with the command line.

# The files that begin with the word.
_fairview_files() {
    local file
    while IFS= read -r file; do
        COMPREPLY+=("$file")
    done < <(compgen -f -- "$1")
    compopt -o filenames 2>/dev/null
}

# The words among those offered that begin with the word.
_fairview_words() {
    local word
    while IFS= read -r word; do
        COMPREPLY+=("$word")
    done < <(compgen -W "$2" -- "$1")
}

_fairview() {
    local word=${COMP_WORDS[COMP_CWORD]} place
    COMPREPLY=()
    if [ "$COMP_CWORD" -le 1 ]; then
        _fairview_words "$word" 'wait share why csv gantt lag trace help --help --version -h -V'
        return
    fi
    # Behind `--` stands a file, whatever its name is.
    for ((place = 2; place < COMP_CWORD; place++)); do
        if [ "${COMP_WORDS[place]}" = -- ]; then
            _fairview_files "$word"
            return
        fi
    done
    case ${COMP_WORDS[1]}/$word in
        wait/-*) _fairview_words "$word" '--plain --bytes --parts --help -h' ;;
        share/-*) _fairview_words "$word" '--plain --csv --bytes --parts --help -h' ;;
        why/-*) _fairview_words "$word" '--bytes --parts --help -h' ;;
        csv/-*) _fairview_words "$word" '--bytes --parts --help -h' ;;
        gantt/-*) _fairview_words "$word" '--core --from --to --bytes --parts --help -h' ;;
        lag/-*) _fairview_words "$word" '--text --bytes --parts --help -h' ;;
        trace/-*) _fairview_words "$word" '--bytes --parts --help -h' ;;
        # Behind an option of `gantt` stands a number.
        gantt/*)
            case ${COMP_WORDS[COMP_CWORD - 1]} in
                --core | --from | --to) ;;
                *) _fairview_files "$word" ;;
            esac
            ;;
        wait/* | share/* | csv/* | lag/* | trace/*) _fairview_files "$word" ;;
        # The first word behind `why` is a name.
        why/*) [ "$COMP_CWORD" -le 2 ] || _fairview_files "$word" ;;
        help/*) _fairview_words "$word" 'wait share why csv gantt lag trace help' ;;
    esac
}

complete -F _fairview fairview
