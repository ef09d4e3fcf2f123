# Says in one line what is wrong with the words or the files of a command, before the program starts, and ends with the program's
# own number for it: 64 for words, 74 for files. What isn't seen here the program answers; nothing is refused that it would take,
# but two names of one file, which it can't see and would write over.

commands='solve check front upgrade elaborate trim models check-models gen trial'
search_options='--search --turns --learn --log-version --harden --boost --time --watch'
# The most that --learn takes, 2^62; that K takes, 2^20; and that a NUMBER may be, 2^64 - 1.
most_learned=4611686018427387904
most_models=1048576
most_number=18446744073709551615
# A search of 30 years, which no clock of the system is too small for.
most_seconds=999999999

# Ends with the number, and says why.
refuse() {
    warn "$2"
    exit "$1"
}

# The names that a command wants, in order; fails where there is no such command.
names_of() {
    case "$1" in
    solve | check) echo 'IN LIST LOG' ;;
    front) echo 'IN LIST' ;;
    upgrade | elaborate) echo 'IN LOG NEW' ;;
    trim) echo 'IN LIST LOG NEW' ;;
    models | check-models) echo 'IN LIST K BASE' ;;
    gen) echo 'NUMBER VARS OBJECTIVES OUT' ;;
    trial) echo 'NUMBER VARS OBJECTIVES BASE' ;;
    *) return 1 ;;
    esac
}

judge() {
    [ -n "$has_command" ] || refuse 64 "$(shown "$mistake")"
    wanted=$(names_of "$command") || refuse 64 "no command is called $(quoted "$command"); there are $commands"
    [ -z "$mistake" ] || refuse 64 "$(shown "$mistake")"
    judge_options
    judge_values
    judge_count
    judge_names
    judge_files
}

# Whether the command has the options that were given.
judge_options() {
    case "$command" in
    solve) options=$search_options ;;
    models) options=--time ;;
    *) options='' ;;
    esac
    for option in $given; do
        case " $options " in
        *" $option "*) ;;
        *) refuse 64 "$command has no option $option${options:+; it has $options}" ;;
        esac
    done
}

judge_value() { # an option, what it wants, its value
    refuse 64 "$1 wants $2: $(quoted "$3")"
}

judge_values() {
    if has_option --learn && ! is_number "$learn" 1 "$most_learned"; then
        judge_value --learn "a number from 1 to $most_learned" "$learn"
    fi
    if has_option --search; then
        case "$search" in
        p-minimal | lower-bounding | bioptsat | turns) ;;
        *) judge_value --search 'p-minimal, lower-bounding, bioptsat or turns' "$search" ;;
        esac
    fi
    judge_turns
    if has_option --log-version && [ "$log_version" != 1 ] && [ "$log_version" != 2 ]; then
        judge_value --log-version '1 or 2' "$log_version"
    fi
    has_option --time || return 0
    is_number "$seconds" 1 "$most_seconds" || judge_value --time 'a number of whole seconds from 1' "$seconds"
    timeout --preserve-status --foreground 9 true 2>/dev/null || refuse 69 '--time wants the command timeout of the GNU coreutils'
}

judge_turns() {
    if ! has_option --turns; then
        [ "$search" != turns ] || refuse 64 '--search turns wants --turns too, as --turns 1112'
        return 0
    fi
    [ "$search" = turns ] || refuse 64 '--turns goes with --search turns alone'
    case "$turns" in
    '' | *[!123]*) judge_value --turns 'a digit for each turn, 1, 2 or 3, as 1112' "$turns" ;;
    esac
}

# Whether there are as many names as the command wants.
judge_count() {
    place=0 missing=''
    for name in $wanted; do
        place=$((place + 1))
        [ "$place" -le "$count" ] || missing="${missing:+$missing and }$name"
    done
    case "$missing" in
    '') ;;
    *' and '*) refuse 64 "$command $wanted: $missing are missing" ;;
    *) refuse 64 "$command $wanted: $missing is missing" ;;
    esac
    [ "$count" -le "$place" ] || eval "refuse 64 \"$command $wanted: this is one name too many: \$(shown \"\$name_$((place + 1))\")\""
}

# Whether each name has its form, and no two are the same.
judge_names() {
    case "$command" in
    gen | trial)
        is_number "$name_1" 0 "$most_number" || refuse 64 "NUMBER is a number from 0 to $most_number: $(quoted "$name_1")"
        is_number "$name_2" 3 4096 || refuse 64 "VARS is a number from 3 to 4096: $(quoted "$name_2")"
        is_number "$name_3" 1 64 || refuse 64 "OBJECTIVES is a number from 1 to 64: $(quoted "$name_3")"
        case "$command $name_4" in
        gen\ *.mcnf | trial\ *) ;;
        *) refuse 64 "OUT ends in .mcnf: $(quoted "$name_4")" ;;
        esac
        return
        ;;
    esac
    judge_ending "$name_1"
    case "$command" in
    front) judge_pairs "$name_1" "$name_2" ;;
    solve | check | upgrade | elaborate) judge_pairs "$name_1" "$name_2" "$name_3" ;;
    trim) judge_pairs "$name_1" "$name_2" "$name_3" "$name_4" ;;
    models | check-models) judge_base ;;
    esac
}

judge_ending() {
    case "$1" in
    *.mcnf | *.opb | *.mopb) ;;
    *.mcnf.* | *.opb.* | *.mopb.*) refuse 64 "IN ends in .opb, .mopb or .mcnf: $(quoted "$1"): if it is packed, unpack it first" ;;
    *) refuse 64 "IN ends in .opb, .mopb or .mcnf: $(quoted "$1")" ;;
    esac
}

judge_base() {
    is_number "$name_3" 1 "$most_models" || refuse 64 "K is a number from 1 to $most_models: $(quoted "$name_3")"
    for name in "$name_1" "$name_2"; do
        case "$name" in
        "$name_4".*) refuse 64 "BASE.models and the logs stand beside $(quoted "$name"): no name may begin with BASE and a dot" ;;
        esac
    done
    if [ "$command" = models ]; then
        # Logs of entries are written too, of which some may be there.
        judge_pairs "$name_1" "$name_2" "$name_4.models" "$name_4".[123456789]*.log
    else
        judge_pairs "$name_1" "$name_2"
    fi
}

# Two names of one file: the program compares names as texts, and would write over the one as the other.
judge_pairs() {
    while [ $# -gt 1 ]; do
        one=$1
        shift
        for other; do
            [ "$one" != "$other" ] || refuse 64 "one name for two files: $(quoted "$one")"
            ! is_one_file "$one" "$other" || refuse 64 "one file by two names: $(shown "$one") and $(shown "$other")"
        done
    done
}

# What the command reads, and what it writes; a search would tell the second at its end.
judge_files() {
    case "$command" in
    solve) judge_read IN "$name_1" && judge_written LIST "$name_2" LOG "$name_3" ;;
    check) judge_read IN "$name_1" LIST "$name_2" LOG "$name_3" ;;
    front) judge_read IN "$name_1" && judge_written LIST "$name_2" ;;
    upgrade | elaborate) judge_read IN "$name_1" LOG "$name_2" && judge_written NEW "$name_3" ;;
    trim) judge_read IN "$name_1" LIST "$name_2" LOG "$name_3" && judge_written NEW "$name_4" ;;
    models) judge_read IN "$name_1" LIST "$name_2" && judge_written BASE.models "$name_4.models" ;;
    check-models) judge_read IN "$name_1" LIST "$name_2" BASE.models "$name_4.models" ;;
    gen) judge_written OUT "$name_4" ;;
    trial) judge_written BASE.mcnf "$name_4.mcnf" BASE.list "$name_4.list" BASE.log "$name_4.log" ;;
    esac
}

judge_read() { # what it is and its name, again and again
    while [ $# -gt 0 ]; do
        [ -e "$2" ] || refuse 74 "$1 isn't there: $(quoted "$2")"
        [ ! -d "$2" ] || refuse 74 "$1 is a folder: $(quoted "$2")"
        [ -r "$2" ] || refuse 74 "$1 can't be read: $(quoted "$2")"
        shift 2
    done
}

judge_written() { # what it is and its name, again and again
    while [ $# -gt 0 ]; do
        split_path "$2"
        [ ! -d "$2" ] || refuse 74 "$1 can't be written: $(quoted "$2") is a folder"
        [ -e "$2" ] || [ -d "$folder" ] || refuse 74 "$1 can't be written: $(quoted "$2"): its folder isn't there"
        can_be_written "$2" || refuse 74 "$1 can't be written: $(quoted "$2")"
        shift 2
    done
}
