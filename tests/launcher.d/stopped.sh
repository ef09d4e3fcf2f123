# A run that is stopped. Sourced by tests/launcher.

cd "$elsewhere" || exit 1

# What a list holds that is left: what `check` refuses in it is only that it isn't the whole front.
is_right() { # a list, a log
    head -n 1 "$1" | grep -q '^s INCOMPLETE [0-9]*$' || return 1
    sed 's/^s INCOMPLETE/s COMPLETE/' "$1" >as_if.list
    "$program" check long.mcnf as_if.list "$2" 2>&1 | grep -q 'log line'
}

stopped() { # ways, words: stops the search at its first model
    ways=$1
    shift
    rm -f r.log
    printf 's COMPLETE 0\n' >r.list
    run "$stop_at" r.log "$first_model" "$ways" "$@"
}

for ways in INT TERM HUP group:INT group:TERM,group:TERM terminal:INT terminal:QUIT INT,INT program:TERM; do
    stopped "$ways" "$tree/scuttle" solve long.mcnf r.list r.log
    expect "a search that is stopped by $ways says how many it has" 10 said '^[^a-z]*stopped: [1-9][0-9]* so far in r.list'
    run is_right r.list r.log
    expect 'and leaves them' 0
done
for shell in bash dash busybox; do
    command -v "$shell" >/dev/null || continue
    [ "$shell" != busybox ] || shell='busybox sh'
    # shellcheck disable=SC2086  # two words
    stopped INT $shell "$tree/scuttle" solve long.mcnf r.list r.log
    expect "the same by $shell" 10 said '^stopped: [1-9][0-9]* so far in r.list'
done
cp r.list kept.list
stopped program:KILL "$tree/scuttle" solve long.mcnf r.list r.log
expect 'a program that was killed is told' 137 warned 'killed by signal 9'
run is_right r.list r.log
expect 'and its models are left' 0
for signal in TERM INT; do
    # What it is sent itself it sends to the search and to the group, as when its time is over.
    stopped "$signal" timeout -s "$signal" 1000 "$tree/scuttle" solve long.mcnf r.list r.log
    expect "a search below timeout, by $signal" 10 said '^stopped: [1-9][0-9]* so far in r.list'
done

# The launcher's own time.
for words in '--time 1 solve long.mcnf r.list r.log' 'solve --time=1 long.mcnf r.list r.log' 'solve long.mcnf --time 1 -- r.list r.log'; do
    # shellcheck disable=SC2086  # words
    run "$tree/scuttle" $words
    expect "$words" 10 said '^stopped: [0-9]* so far in r.list'
done
run "$tree/scuttle" solve 'two sites.mcnf' r.list r.log --time 100
expect 'a search that ends before its time' 0 said '^complete '
run "$tree/scuttle" solve --time 2 kept.mcnf missing/r.list r.log
expect 'with a list that cannot be written' 74
for words in 'solve long.mcnf r.list r.log --time 0' 'solve long.mcnf r.list r.log --time 1.5' 'solve long.mcnf r.list r.log --time' \
    'solve long.mcnf r.list r.log --time -1' 'solve long.mcnf r.list r.log --time=' 'check long.mcnf r.list r.log --time 2' \
    'solve --time 1 --time 2 long.mcnf r.list r.log'; do
    # shellcheck disable=SC2086  # words
    run "$tree/scuttle" $words
    expect "$words" 64 warned '[-]-time'
done

# Where there is no model yet.
printf 's COMPLETE 0\n' >r.list
run "$tree/scuttle" --time 1 solve nothing.mcnf r.list none.log
expect 'a search that has not begun' 10 said '^stopped: 0 so far in r.list'
run grep -qx 's INCOMPLETE 0' r.list
expect 'leaves a list without entries' 0
cp kept.list old.log
run "$tree/scuttle" --time 1 solve nothing.mcnf r.list old.log
expect 'a log of before is not read' 10 said '^stopped: 0 so far in r.list'
run cmp kept.list old.log
expect 'and stays' 0
run "$tree/scuttle" --time 1 solve long.mcnf r.list /dev/null
expect 'a log in no file' 10 warned "aren't listed: it is no file"
run sh -c "'$tree/scuttle' --time 1 solve long.mcnf r.list /dev/stdout | cat >/dev/null; cat r.list"
expect 'a log in a pipe' 0 said '^s INCOMPLETE 0$'
run sh -c "'$tree/scuttle' --time 1 solve long.mcnf /dev/stdout r.log"
expect 'a list on standard output' 10 said '^stopped: no list'
ln -sf /dev/full full.list
run "$tree/scuttle" --time 1 solve long.mcnf full.list r.log
expect 'a list on a device' 10 said '^stopped: no list'

printf 'h 1\n' >bad.mcnf

# Names as they come.
odd=$(printf -- "-it's \"a\"\nlist")
run "$stop_at" ./-r.log "$first_model" INT "$tree/scuttle" solve -- long.mcnf "$odd" -r.log
expect 'names with dashes, quotes and line feeds' 10 said "^stopped: [1-9][0-9]* so far in -it's \"a\"?list"
run is_right "./$odd" ./-r.log
expect 'have their list' 0
mkdir kept
ln -s kept/r.list linked.r.list
printf 's COMPLETE 0\n' >kept/r.list
chmod 600 kept/r.list
run "$tree/scuttle" --time 1 solve long.mcnf linked.r.list r.log
expect 'a list behind a link' 10
run sh -c 'test -L linked.r.list && stat -c %a kept/r.list && head -c 12 kept/r.list'
expect 'stays there, with its permissions' 0 said '^600$'

# Without Python, and with one that takes long.
printf 's COMPLETE 0\n' >r.list
stopped INT env PATH="$work/bare" "$tree/scuttle" solve long.mcnf r.list r.log
expect 'without Python it is told what is missing' 10 warned 'no python3'
run grep -qx 's INCOMPLETE 0' r.list
expect 'and the list is one without entries' 0
mkdir "$work/slow"
printf '#!/bin/sh\necho begun >"%s/slow/begun"\nexec sleep 60\n' "$work" >"$work/slow/python3"
chmod +x "$work/slow/python3"
rm -f r.log
run "$stop_at" r.log "$first_model" "INT,there:$work/slow/begun,INT" env PATH="$work/slow:$PATH" "$tree/scuttle" solve long.mcnf r.list r.log
expect 'a second interrupt ends at once' 130
run sh -c "test -e '$work/slow/begun' && grep -qx 's INCOMPLETE 0' r.list"
expect 'and leaves a list without entries' 0

# Full disks and permissions.
run setpriv --bounding-set -dac_override,-dac_read_search --inh-caps -dac_override,-dac_read_search \
    sh -c "mkdir closed; echo s COMPLETE 0 >closed/r.list; chmod a-w closed; '$tree/scuttle' --time 1 solve long.mcnf closed/r.list r.log"
expect 'a list in a folder that takes nothing new' 10 said '^stopped: [0-9]* so far in closed/r.list'
mkdir small
if mount -t tmpfs -o size=8k none small 2>/dev/null; then
    printf 's COMPLETE 0\n' >small/r.list
    head -c 4096 /dev/zero >small/rest
    # With variables of one clause more, so that no model has room on the disk.
    { cat long.mcnf && echo "h $(seq -s ' ' 201 1500) 0"; } >wide.mcnf
    rm -f r.log
    run "$stop_at" r.log "$first_model" INT "$tree/scuttle" solve wide.mcnf small/r.list r.log
    expect 'a full disk is told' 10 warned 'No space left'
    run grep -qx 's INCOMPLETE 0' small/r.list
    expect 'and the list is one without entries' 0
    umount small
else
    echo 'launcher: no disk can be filled here: these tests are left out'
fi
# A search that ends by itself without a list: its own number, its own words, and what it has found.
printf 's COMPLETE 0\n' >r.list
run sh -c "ulimit -v 12000; '$tree/scuttle' solve long.mcnf r.list r.log"
expect 'a limit on memory is what the program says' 71 warned '^scuttle: no memory$'
expect 'and its models are left' 71 said '^stopped: [0-9]* so far in r.list$'
run grep -q '^s INCOMPLETE' r.list
expect 'in place of an older list' 0
run bash -c "ulimit -f 200; '$tree/scuttle' solve long.mcnf r.list r.log"
expect 'a log that takes nothing more' 74 said '^stopped: [1-9][0-9]* so far in r.list$'
run is_right r.list r.log
expect 'has models too' 0
cp kept.list old.list
run "$tree/scuttle" solve bad.mcnf old.list r.log
expect 'a search that has not begun' 65
run cmp kept.list old.list
expect 'leaves an older list' 0

# Other commands end by the signal, as without a launcher.
mkfifo open.log
run "$stop_at" 'two sites.mcnf' '' TERM "$tree/scuttle" check 'two sites.mcnf' 'its list.list' open.log
expect 'a check that is stopped' 143
run "$tree/scuttle" models --time 1 nothing.mcnf 'its list.list' 2 m
expect 'models that are stopped' 10 said "^stopped: m.models wasn't written"
touch m.models
run "$tree/scuttle" models --time 1 nothing.mcnf 'its list.list' 2 m
expect 'which leave the old ones' 10 said '^stopped: m.models is as before'
run "$stop_at" r.log "$first_model" KILL "$tree/scuttle" solve long.mcnf r.list r.log
expect 'a launcher that is killed' 137
if setpriv --pdeathsig KILL true 2>/dev/null; then
    for _ in $(seq 60); do
        size=$(stat -c %s r.log)
        sleep 1
        [ "$(stat -c %s r.log)" -ne "$size" ] || break
    done
    run test "$(stat -c %s r.log)" -eq "$size"
    expect 'takes the program with it' 0
fi
run "$tree/scuttle" check 'two sites.mcnf' 'its list.list' /dev/stdin
expect 'standard input is the program'"'"'s' 11
run sh -c "'$tree/scuttle' check 'two sites.mcnf' 'its list.list' /dev/stdin <'its log.log'"
expect 'and so is a file there' 0 said '^accepted$'
run sh -c "'$tree/scuttle' check 'two sites.mcnf' 'its list.list' /dev/fd/7 7<'its log.log'"
expect 'and what the caller has opened' 0 said '^accepted$'

# Signals that come at a given point, by commands on the path that send them to the launcher's group as a terminal does.
group_signals() { # the command, when, the signal
    mkdir -p "$work/signals"
    printf '#!/bin/sh\nif %s; then kill -%s 0; fi\nexec %s "$@"\n' "$2" "$3" "$(type -P "$1")" >"$work/signals/$1"
    chmod +x "$work/signals/$1"
}
stopped_with_signals() { stopped "$1" env PATH="$work/signals:$PATH" TMPDIR="$work/scratch" "$tree/scuttle" solve long.mcnf r.list r.log; }
left_scratch() { run sh -c "mkdir -p '$work/scratch' && rmdir '$work/scratch'"; }
has_model='grep -q ^sol r.log'
for tool in stat awk tr; do
    group_signals "$tool" "$has_model" INT
    stopped_with_signals INT
    expect "a second interrupt at once, by $tool" 10 said '^stopped: [1-9][0-9]* so far in r.list'
    run is_right r.list r.log
    expect 'leaves no older list' 0
    rm "$work/signals/$tool"
done
for tool in mktemp mkfifo rm; do
    for signal in TERM INT; do
        mkdir "$work/scratch"
        group_signals "$tool" '! [ -e sent ] && touch sent' "$signal"
        stopped_with_signals times:1
        expect "signal $signal while the program is started, by $tool" 10 said "^stopped: [0-9]* so far in r.list"
        left_scratch
        expect 'leaves no folder' 0
        rm -f "$work/signals/$tool" sent
    done
done
group_signals sha256sum '! [ -e sent ] && touch sent' QUIT
run setsid -w env PATH="$work/signals:$work/bin" "$tree/release/program"
expect 'a signal before the program is found builds nothing' 131
rm -r "$work/signals"

# A program that a first signal doesn't reach, as one that comes before a shell has become the program.
cat >"$work/deaf" <<'DEAF'
#!/bin/sh
[ $# -eq 0 ] && exit 64
trap 'trap - TERM' TERM
printf 'scuttle proof version 1\nsol x1 ~x2 : : 0 0\n' >"$4"
while :; do sleep 0.1; done
DEAF
chmod +x "$work/deaf"
release "$work/deaf"
for ways in TERM INT group:INT group:HUP; do
    stopped "$ways" "$tree/scuttle" solve 'two sites.mcnf' r.list r.log
    expect "a signal that is lost is sent again: $ways" 10 said '^stopped: 1 so far in r.list'
done

# A program that is stopped while it writes LIST, or after it.
cat >"$work/writing" <<'WRITING'
#!/bin/sh
[ $# -eq 0 ] && exit 64
printf 'scuttle proof version 1\nsol x1 ~x2 : : 0 0\nend 1\n' >"$4"
printf 's COMPLETE 1\no 1 0\n' >"$3"
[ "$2" = part.mcnf ] || printf 'v 1 -2 0\n' >>"$3"
touch written
exec sleep 60
WRITING
chmod +x "$work/writing"
release "$work/writing"
cp 'two sites.mcnf' part.mcnf
rm -f r.log written
run "$stop_at" written '' TERM "$tree/scuttle" solve 'two sites.mcnf' r.list r.log
expect 'a list that was written stays' 10 said '^stopped: s COMPLETE 1 stands in r.list'
rm r.log written
run "$stop_at" written '' TERM "$tree/scuttle" solve part.mcnf r.list r.log
expect 'a part of a list is replaced' 10 said '^stopped: 1 so far in r.list'
run grep -qx 's INCOMPLETE 1' r.list
expect 'by an incomplete one' 0
release "$program"
rm -f open.log
cd "$work" || exit 1
