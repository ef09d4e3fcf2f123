# Runs the program and waits for it, so that a search that is stopped leaves the models that it has found.
#
# The program is a child in the background, which no interrupt of the terminal reaches: the launcher is told of it, and ends the
# program. `stopped` is the signal that has asked for it, `child` what is waited for, `listing` is set while a list is made.

stopped='' child='' listing='' list='' log='' watcher='' explainer=''

# What each signal does: it ends the program. Those of a terminal come twice where `timeout` sends them to a group as well, so no
# second one counts before the program has ended; then a second interrupt ends all at once. A list is whole even then: see tools/far.
stop() {
    woken=1
    if [ -z "$listing" ]; then
        stopped=${stopped:-$1}
        end_process "$child"
    elif [ "$1" = INT ]; then
        end_process "$child"
        exit 130
    fi
}

# Ends a process of the launcher's own, if there is one. It is asked until it has ended: a shell that was forked, and isn't yet the
# program, drops a signal.
end_process() { # its id, or nothing
    while [ -n "$1" ] && kill -TERM "$1" 2>/dev/null; do
        sleep 0.1
    done
}

# Whether a number is that of a command that a signal has ended which the launcher is told of too.
is_of_signal() {
    case "$1" in
    129 | 130 | 131 | 143) return 0 ;;
    esac
    return 1
}

listen() {
    for signal in HUP INT QUIT TERM; do
        # shellcheck disable=SC2064  # the signal of now
        trap "stop $signal" "$signal"
    done
    # Past a limit on the size of files a write then fails, which the program answers, and nothing kills it.
    trap '' XFSZ
}

# Starts a command beside the launcher, with its standard input, which the shell would take from it.
start() {
    if { true 9<&0; } 2>/dev/null; then
        exec 9<&0
        "$@" <&9 9<&- &
        child=$!
        exec 9<&-
    else
        "$@" <&- &
        child=$!
    fi
    # A signal may have come before there was a child.
    [ -z "$stopped" ] || [ -n "$listing" ] || end_process "$child"
}

# Waits for a process, however often a signal wakes the shell; sets `status`.
await() { # its id
    status=143
    # A signal may have kept it from starting.
    [ -n "$1" ] || return 0
    while :; do
        woken=''
        # The shell would say that it was killed.
        wait "$1" 2>/dev/null
        answer=$?
        # A process that was waited for is unknown afterwards: its first answer is the right one.
        [ "$answer" -eq 127 ] || status=$answer
        [ -n "$woken" ] || return 0
    done
}

# Runs the program over the words; sets `number`. It dies with the launcher, also where that is killed, as far as the system can do that.
run() { # the program, its words
    bound=''
    if setpriv --pdeathsig KILL true 2>/dev/null; then
        bound=1
        set -- setpriv --pdeathsig KILL "$@"
    fi
    if [ -n "$seconds" ]; then
        set -- timeout --preserve-status --foreground "$seconds" "$@"
        [ -z "$bound" ] || set -- setpriv --pdeathsig TERM "$@"
    fi
    listen
    start_watching
    start_explained "$@"
    await "$child"
    number=$status child=''
    end_watching
    # What is warned of comes before what is said next.
    await "$explainer"
}

# Starts a command whose warnings go through `explain`, by a pipe that has no name once both ends of it are open. The launcher opens
# both, first by 9, which waits for no other end, since `explain` may be ended before it could.
start_explained() {
    # A folder is made, with its name known, or isn't: no signal of the group comes between.
    if scratch=$(trap '' HUP INT QUIT TERM && mktemp -d 2>/dev/null) && mkfifo "$scratch/warned"; then
        {
            exec 9<&-
            (trap '' HUP TERM && explain) <&8 8<&- &
            explainer=$!
            start "$@" 2>"$scratch/warned" 8<&-
        } 9<>"$scratch/warned" 8<"$scratch/warned"
    else
        start "$@"
    fi
    [ -z "$scratch" ] || remove_scratch
}

remove_scratch() {
    while
        rm -rf "$scratch"
        is_of_signal "$?"
    do :; done
}

# Shows with --watch how far the search is, by a process of its own that reads LOG.
start_watching() {
    [ -n "$log" ] && has_option --watch || return 0
    if ! command -v python3 >/dev/null; then
        warn 'there is no python3 on the path, which --watch wants: nothing is shown'
    elif [ -e "$log" ] && ! [ -f "$log" ]; then
        warn 'LOG is no file, which --watch reads: nothing is shown'
    else
        # An IN that is a pipe can be read once, by the program.
        set -- "$log"
        [ ! -f "$instance" ] || set -- "$log" "$instance"
        "$root/tools/watch" "$@" --line --unlike "$log_before" </dev/null >/dev/null &
        watcher=$!
    fi
}

end_watching() {
    end_process "$watcher"
    await "$watcher"
    watcher=''
}

# Ends as the program has ended. Where it was stopped, or memory, room or lines were refused to it, LIST is made new.
end() {
    # There is nothing more to stop, until the models are listed: no signal to the group is to end what is asked meanwhile.
    trap '' HUP INT QUIT TERM
    case "$number" in
    67 | 71 | 74) [ "$command" = solve ] && [ -f "$log" ] && is_newer "$log" "$log_before" || exit "$number" ;;
    129) stopped=${stopped:-HUP} ;;
    130) stopped=${stopped:-INT} ;;
    131) stopped=${stopped:-QUIT} ;;
    143) stopped=${stopped:-TERM} ;;
    *)
        # By itself it ends with numbers below 128.
        [ "$number" -gt 128 ] || exit "$number"
        warn "the program was killed by signal $((number - 128))"
        ;;
    esac
    [ -n "$list" ] || die
    leave_"$command"
    [ "$number" -lt 128 ] || [ -z "$stopped" ] || number=10
    exit "$number"
}

# Ends by the signal that was sent, as the program would have; so a shell sees that.
die() {
    [ -z "$stopped" ] || {
        trap - "$stopped"
        kill -"$stopped" $$
    }
    exit "$number"
}

warn() {
    printf 'scuttle: %s\n' "$1" >&2
}

say() {
    printf '%s\n' "$1" || exit 74
}

# Notes what a run that is stopped is to leave: the file `list`, and of what it is made; and what these are before.
note_files() {
    case "$command $count" in
    'solve 3')
        to_path "$name_1"
        instance=$path
        to_path "$name_2"
        list=$path
        to_path "$name_3"
        log=$path log_before=$(stamp_of "$path")
        ;;
    'models 4')
        to_path "$name_4.models"
        list=$path
        ;;
    *) return ;;
    esac
    list_before=$(stamp_of "$list")
}

is_newer() { # a file, its stamp of before
    [ "$(stamp_of "$1")" != "$2" ]
}

# Leaves the list of the models so far, where the program hasn't written one, and says how many they are.
leave_solve() {
    name=$(shown "$name_2")
    if [ -e "$list" ] && ! is_kept "$list"; then
        say "stopped: no list, since $name is no file of its own"
        return
    fi
    if is_newer "$list" "$list_before" && is_whole_list "$list"; then
        say "stopped: $(head -n 1 "$list") stands in $name"
        return
    fi
    # First the list that is right whatever comes: nobody is to find an older one.
    if ! { echo 's INCOMPLETE 0' >"$list"; } 2>/dev/null; then
        # Better none than a part of one.
        { true >"$list"; } 2>/dev/null
        warn "this can't be written: $name"
        exit 74
    fi
    list_models || warn "the models in $(shown "$name_3") aren't listed: $why_not"
    read -r _ _ found <"$list"
    say "stopped: $found so far in $name"
}

# Writes the list of the models in LOG. Where the search hadn't begun, LOG isn't of this instance, and there are none.
list_models() {
    why_not='it is no file'
    [ -e "$log" ] || return 0
    [ -f "$log" ] || return
    is_newer "$log" "$log_before" || return 0
    why_not='IN is no file'
    [ -f "$instance" ] || return
    why_not='there is no python3 on the path, which tools/far wants'
    command -v python3 >/dev/null || return
    listing=1 status=143
    listen
    # A shell that goes tells all its children, and perhaps twice.
    trap '' HUP
    # What reads the models may be ended by a signal to the group that isn't a second interrupt.
    while is_of_signal "$status"; do
        start "$root/tools/far" "$instance" "$log" --to "$list"
        await "$child"
    done
    why_not="tools/far ended with $status"
    [ "$status" -eq 0 ]
}

leave_models() {
    name=$(shown "$name_4.models")
    if is_newer "$list" "$list_before"; then
        say "stopped: $name isn't whole"
    elif [ -e "$list" ]; then
        say "stopped: $name is as before"
    else
        say "stopped: $name wasn't written"
    fi
}
