# Reads the words of a command line, as the program does: options anywhere behind the command, two dashes, and behind these names
# alone. It sets
#   command, has_command     the first word that is no option of the launcher's own
#   count, name_1, name_2 .. the other words that are neither options nor their values
#   given                    the options that were given, each with a blank before and behind
#   learn, search, turns, log_version, seconds
#                            their values; the last is that of --time
#   wants_help, wants_version, mistake
#                            what is to be said instead; mistake is the first thing that is wrong

command='' has_command='' count=0 only_names='' awaiting='' given=' '
learn='' search='' turns='' log_version='' seconds=''
wants_help='' wants_version='' mistake=''

complain() {
    [ -n "$mistake" ] || mistake=$1
}

take_name() {
    if [ -z "$has_command" ]; then
        has_command=1 command=$1
    else
        count=$((count + 1))
        eval "name_$count=\$1"
    fi
}

take_option() {
    ! has_option "$1" || complain "$1 stands twice"
    given="$given$1 "
    [ -n "$has_command" ] || is_own_option "$1" || complain "$1 stands before the command"
}

take_value() { # an option, its value
    take_option "$1"
    case "$1" in
    --learn) learn=$2 ;;
    --search) search=$2 ;;
    --turns) turns=$2 ;;
    --log-version) log_version=$2 ;;
    --time) seconds=$2 ;;
    esac
}

has_option() {
    case "$given" in
    *" $1 "*) return 0 ;;
    *) return 1 ;;
    esac
}

# The options of the launcher, which the program doesn't know.
is_own_option() {
    case "$1" in
    --time | --watch) return 0 ;;
    *) return 1 ;;
    esac
}

# Reads the next word. Sets `is_own` where it isn't for the program.
read_word() {
    is_own=''
    if [ -n "$only_names" ]; then
        take_name "$1"
        return
    fi
    if [ -n "$awaiting" ]; then
        read_value "$1" && return
    fi
    case "$1" in
    --)
        only_names=1
        [ -n "$has_command" ] || complain '-- stands before the command'
        ;;
    -h | --help) wants_help=1 ;;
    -V | --version) wants_version=1 ;;
    --learn | --search | --turns | --log-version | --time) awaiting=$1 ;;
    --learn=* | --search=* | --turns=* | --log-version=* | --time=*) take_value "${1%%=*}" "${1#*=}" ;;
    --harden | --boost | --watch) take_option "$1" ;;
    -?*) complain "${command:-the launcher} has no option $1" ;;
    *) take_name "$1" ;;
    esac
    ! is_own_option "${1%%=*}" || is_own=1
}

# Reads the word behind an option; fails where that is another option, and no value.
read_value() {
    option=$awaiting awaiting=''
    case "$1" in
    -?*)
        complain "$option wants a value"
        return 1
        ;;
    esac
    take_value "$option" "$1"
    ! is_own_option "$option" || is_own=1
}

# What is told when all words were read.
end_words() {
    [ -z "$awaiting" ] || complain "$awaiting wants a value"
}

# Whether a text is a number in decimal digits, from a number below ten up to one that has no leading zeros.
is_number() {
    case "$1" in
    '' | *[!0123456789]*) return 1 ;;
    esac
    digits=${1#"${1%%[!0]*}"}
    digits=${digits:-0}
    [ ${#digits} -gt 1 ] || [ "$digits" -ge "$2" ] || return 1
    [ ${#digits} -lt ${#3} ] && return
    [ ${#digits} -eq ${#3} ] && ! expr "x$digits" \> "x$3" >/dev/null
}
