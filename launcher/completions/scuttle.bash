# Completion of scuttle's words for bash.

_scuttle_words() {
    mapfile -t COMPREPLY < <(compgen -W "$1" -- "$2")
}

_scuttle() {
    local word=${COMP_WORDS[COMP_CWORD]} before=${COMP_WORDS[COMP_CWORD - 1]} command=${COMP_WORDS[1]}
    local commands='solve check front upgrade elaborate trim models check-models gen trial'
    COMPREPLY=()
    case "$before" in
    --search) _scuttle_words 'p-minimal lower-bounding bioptsat turns' "$word" && return ;;
    --log-version) _scuttle_words '1 2' "$word" && return ;;
    --learn | --turns | --time) return ;;
    esac
    if [ "$COMP_CWORD" -eq 1 ]; then
        _scuttle_words "$commands help version" "$word"
    elif [ "$command" = help ]; then
        _scuttle_words "$commands kinds" "$word"
    elif [[ $word == -* ]]; then
        case "$command" in
        solve) _scuttle_words '--search --turns --learn --log-version --harden --boost --time --watch --help' "$word" ;;
        models) _scuttle_words '--time --help' "$word" ;;
        *) _scuttle_words '--help' "$word" ;;
        esac
    else
        compopt -o filenames 2>/dev/null
        mapfile -t COMPREPLY < <(compgen -f -- "$word")
    fi
}

complete -F _scuttle scuttle
