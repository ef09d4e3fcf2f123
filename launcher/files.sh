# Questions about files.

# Sets `path` to a name of the same file that no program takes for an option.
to_path() {
    case "$1" in
    /*) path=$1 ;;
    *) path=./$1 ;;
    esac
}

# Sets `folder` to the folder of a file, and `leaf` to its name there. No call of another program, which would drop line feeds.
split_path() {
    to_path "$1"
    leaf=${path##*/}
    folder=${path%/*}
    folder=${folder:-/}
}

# Whether two names are those of one file, or will be once it is there. A pipe or a device may have several names.
is_one_file() {
    if [ -e "$1" ] && [ -e "$2" ]; then
        [ "$1" -ef "$2" ] && [ -f "$1" ]
        return
    fi
    split_path "$1"
    one_folder=$folder one_leaf=$leaf
    split_path "$2"
    [ "$one_leaf" = "$leaf" ] && [ "$one_folder" -ef "$folder" ]
}

can_be_written() {
    if [ -e "$1" ]; then
        [ -w "$1" ] && [ ! -d "$1" ]
        return
    fi
    split_path "$1"
    [ -n "$leaf" ] && [ -d "$folder" ] && [ -w "$folder" ]
}

# Whether a file holds what is written to it: none that isn't there yet, no pipe, no device, and none that is a standard stream,
# to which what is said goes too.
is_kept() {
    [ -f "$1" ] && ! [ "$1" -ef /dev/stdout ] && ! [ "$1" -ef /dev/stderr ]
}

# What tells whether a file was written since; empty where it isn't there.
stamp_of() {
    stat -L -c '%i %.9Z' "$1" 2>/dev/null
}

# Whether a file has the form of a list, to its end.
is_whole_list() {
    awk 'NR == 1 && $1 == "s" && NF == 3 { lines = 2 * $3 + 1 } END { exit NR != lines }' <"$1" &&
        [ "$(tail -c 1 <"$1" | wc -l)" -eq 1 ]
}

# A text as it may stand in a line, which a line feed or another control would break.
shown() {
    printf '%s' "$1" | tr '[:cntrl:]' '?'
}

# The same of a word: an empty one is seen too.
quoted() {
    if [ -n "$1" ]; then shown "$1"; else printf "''"; fi
}
