# Adds to what the program warns of a line: the text of the line that is refused, and the sentence of docs/help/kinds.txt.

# As many characters of a line as a terminal shows beside the sentence.
most_shown=60

# Hands each line of standard input over to standard error, and adds to one that it knows.
explain() {
    while IFS= read -r line; do
        # The line that --watch rewrites makes room.
        [ -z "$watcher" ] || [ ! -t 2 ] || printf '\r\033[K'
        printf '%s\n' "$line"
        explain_line "$line"
    done >&2
    printf '%s' "$line" >&2
}

explain_line() {
    case "$1" in
    'scuttle: line '*': too large: '*)
        of_words "${1#scuttle: line }"
        add 'A limit' "$(instance_of)" "$number" "${words#too large: }"
        ;;
    'scuttle: line '*': '*)
        of_words "${1#scuttle: line }"
        add 'A mistake in IN' "$(instance_of)" "$number" "$words"
        ;;
    'scuttle: list entry '*': '*)
        of_words "${1#scuttle: list entry }"
        # Two lines for each entry, behind the first.
        add 'An entry of LIST' "$name_2" $((number == 0 ? 1 : 2 * number)) "$words"
        ;;
    'scuttle: models entry '*': log line '*': '*)
        of_words "${1#scuttle: models entry }"
        entry=$number
        of_words "${words#log line }"
        add 'A line of LOG' "$name_4.$entry.log" "$number" "$words"
        ;;
    'scuttle: models entry '*': '*)
        of_words "${1#scuttle: models entry }"
        add 'An entry of BASE.models' '' "$number" "$words"
        ;;
    'scuttle: log line '*': '*)
        of_words "${1#scuttle: log line }"
        add 'A line of LOG' "$(log_of)" "$number" "$words"
        ;;
    'scuttle: usage') case "$search" in bioptsat | turns) add 'Of the whole run' '' 0 "${1#scuttle: }" ;; esac ;;
    'scuttle: log full' | 'scuttle: no memory' | 'scuttle: file fault') add 'Of the whole run' '' 0 "${1#scuttle: }" ;;
    esac
}

# Cuts `3: CutOpen 1` into `number` and `words`.
of_words() {
    number=${1%%:*}
    words=${1#*: }
}

instance_of() {
    case "$command" in
    gen) ;;
    trial) printf '%s' "$name_4.mcnf" ;;
    *) printf '%s' "$name_1" ;;
    esac
}

log_of() {
    case "$command" in
    upgrade | elaborate) printf '%s' "$name_2" ;;
    *) printf '%s' "$name_3" ;;
    esac
}

add() { # what is refused, the file and the number of its line or nothing, the kind with its value
    sentence=$(sentence_of "$1" "$4" "$3")
    [ -n "$sentence" ] || return 0
    text=''
    if [ -f "$2" ] && [ "$3" -gt 0 ]; then
        text=$(sed -n "$3{p;q;}" <"$2" | head -c "$most_shown" | LC_ALL=C tr -c ' -~' '?' | sed 's/?$//')
    fi
    printf 'scuttle: %s\n' "${text:+\`$text\`: }$sentence"
}

# The sentence of a kind: what stands behind it, in the part of the page that begins so.
sentence_of() { # how the part begins, the kind with its value, the number of the line
    awk -v part="$1" -v kind="$2" -v line="$3" '
        /^[^ ]/ { is_part = index($0, part) == 1 }
        is_part && index($0, "  ") == 1 {
            name = substr($0, 3)
            sub(/  .*/, "", name)
            is_kind = kind == name
            if (!is_kind && index(kind, name " ") == 1) { is_kind = 1; value = substr(kind, length(name) + 2) }
            if (is_kind) {
                sub(/^  [A-Za-z ]*[A-Za-z]  +/, "")
                sub(/[{]value[}]/, value)
                sub(/[{]here[}]/, (line > 1 ? "line " line - 1 " or " line : "line " line))
                print
                exit
            }
        }' "$root/docs/help/kinds.txt"
}
