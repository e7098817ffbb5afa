# Completions of fairexec for bash. Source this file, or copy it to ~/.local/share/bash-completion/completions/fairexec.
# tests/pages compares it with the command line.

# The files that begin with the word.
_fairexec_files() {
    local file
    while IFS= read -r file; do
        COMPREPLY+=("$file")
    done < <(compgen -f -- "$1")
    compopt -o filenames 2>/dev/null
}

# The words among those offered that begin with the word.
_fairexec_words() {
    local word
    while IFS= read -r word; do
        COMPREPLY+=("$word")
    done < <(compgen -W "$2" -- "$1")
}

_fairexec() {
    local word=${COMP_WORDS[COMP_CWORD]} place
    COMPREPLY=()
    if [ "$COMP_CWORD" -le 1 ]; then
        _fairexec_words "$word" 'run threads audit journal help --help --version -h -V'
        return
    fi
    # Behind `--` stands a file, whatever its name is.
    for ((place = 2; place < COMP_CWORD; place++)); do
        if [ "${COMP_WORDS[place]}" = -- ]; then
            _fairexec_files "$word"
            return
        fi
    done
    case ${COMP_WORDS[1]}/$word in
        run/-*) _fairexec_words "$word" '--journal --stats --help -h' ;;
        threads/-*) _fairexec_words "$word" '--journal --stats --help -h' ;;
        audit/-*) _fairexec_words "$word" '--bytes --parts --follow --help -h' ;;
        journal/-*) _fairexec_words "$word" '--text --help -h' ;;
        run/* | threads/* | audit/* | journal/*) _fairexec_files "$word" ;;
        help/*) _fairexec_words "$word" 'run threads audit journal help' ;;
    esac
}

complete -F _fairexec fairexec
