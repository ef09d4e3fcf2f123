# What is said of wrong words and files. Sourced by tests/launcher.

cd "$elsewhere" || exit 1
mkdir a.folder
cp in.mcnf in.mcnf.gz

# Each row: the number, the words, and what is said of them.
while IFS='|' read -r wanted words text; do
    # shellcheck disable=SC2086  # words
    without_rt "$tree/scuttle" $words
    expect "$words" "$wanted" warned "^scuttle: $text"
    run test "$(wc -l <"$work/warned")" -eq 1
    expect "$words: in one line" 0
done <<'ROWS'
64|solv in.mcnf r.list r.log|no command is called solv; there are solve check front upgrade
64|--foo|the launcher has no option --foo$
64|-- solve in.mcnf r.list r.log|-- stands before the command$
64|--learn 5 solve in.mcnf r.list r.log|--learn stands before the command$
64|solve|solve IN LIST LOG: IN and LIST and LOG are missing$
64|solve in.mcnf r.list|solve IN LIST LOG: LOG is missing$
64|check in.mcnf in.list in.log x|check IN LIST LOG: this is one name too many: x$
64|models in.mcnf in.list 2|models IN LIST K BASE: BASE is missing$
64|gen 7 10 3|gen NUMBER VARS OBJECTIVES OUT: OUT is missing$
64|solve network.txt r.list r.log|IN ends in .opb, .mopb or .mcnf: network.txt$
64|solve in.mcnf.gz r.list r.log|IN ends in .opb, .mopb or .mcnf: in.mcnf.gz: .* unpack it first$
64|solve in.mcnf r.list r.log --lern 5|solve has no option --lern
64|check in.mcnf in.list in.log --harden|check has no option --harden$
64|models in.mcnf in.list 2 m --learn 5|models has no option --learn; it has --time$
64|solve in.mcnf r.list r.log --learn|--learn wants a value$
64|solve in.mcnf r.list r.log --learn -5|--learn wants a value$
64|solve in.mcnf r.list r.log --learn --harden|--learn wants a value$
64|solve in.mcnf r.list r.log --learn 0|--learn wants a number from 1 to 4611686018427387904: 0$
64|solve in.mcnf r.list r.log --learn=4611686018427387905|--learn wants a number
64|solve in.mcnf r.list r.log --learn 5x|--learn wants a number
64|solve in.mcnf r.list r.log --learn 5 --learn 6|--learn stands twice$
64|solve in.mcnf r.list r.log --harden --harden|--harden stands twice$
64|solve in.mcnf r.list r.log --harden=1|solve has no option --harden=1
64|solve in.mcnf r.list r.log --search=pminimal|--search wants p-minimal, lower-bounding, bioptsat or turns: pminimal$
64|solve in.mcnf r.list r.log --search turns|--search turns wants --turns too
64|solve in.mcnf r.list r.log --turns 12|--turns goes with --search turns alone$
64|solve in.mcnf r.list r.log --search turns --turns=|--turns wants a digit for each turn, 1, 2 or 3, as 1112: ''$
64|solve in.mcnf r.list r.log --search turns --turns 124|--turns wants a digit
64|solve in.mcnf r.list r.log --log-version 3|--log-version wants 1 or 2: 3$
64|solve in.mcnf r.list r.list|one name for two files: r.list$
64|solve in.mcnf r.list ./r.list|one file by two names: r.list and ./r.list$
64|models in.mcnf in.list 0 m|K is a number from 1 to 1048576: 0$
64|models in.mcnf in.list 1048577 m|K is a number from
64|models in.mcnf in.list 2 in|BASE.models and the logs stand beside in.mcnf
64|gen -1 10 3 g.mcnf|gen has no option -1
64|gen 18446744073709551616 10 3 g.mcnf|NUMBER is a number from 0 to 18446744073709551615
64|gen 7 2 3 g.mcnf|VARS is a number from 3 to 4096: 2$
64|gen 7 4097 3 g.mcnf|VARS is a number
64|gen 7 10 65 g.mcnf|OBJECTIVES is a number from 1 to 64: 65$
64|gen 7 10 3 g.opb|OUT ends in .mcnf: g.opb$
74|solve none.opb r.list r.log|IN isn't there: none.opb$
74|check in.mcnf none.list in.log|LIST isn't there: none.list$
74|check in.mcnf in.list a.folder|LOG is a folder: a.folder$
74|check-models in.mcnf in.list 2 none|BASE.models isn't there: none.models$
74|solve in.mcnf a.folder r.log|LIST can't be written: a.folder is a folder$
74|upgrade in.mcnf in.log none/new.log|NEW can't be written: none/new.log: its folder isn't there$
74|trial 7 10 2 none/t|BASE.mcnf can't be written: none/t.mcnf: its folder isn't there$
ROWS
run setpriv --bounding-set -dac_override,-dac_read_search sh -c "chmod 0 in.list; '$tree/scuttle' check in.mcnf in.list in.log"
expect 'a file that may not be read' 74 warned "^scuttle: LIST can't be read: in.list$"
run setpriv --bounding-set -dac_override,-dac_read_search sh -c "'$tree/scuttle' front in.mcnf in.list"
expect 'a file that may not be written' 74 warned "^scuttle: LIST can't be written: in.list$"
chmod 644 in.list
run "$tree/scuttle" solve in.mcnf "$(printf 'a\nb/c')" r.log
expect 'a line feed in a name breaks no line' 74 warned "^scuttle: LIST can't be written: a?b/c: its folder isn't there$"

# Help and version stand anywhere, but behind two dashes.
for words in '-h' '--help' 'help' '-h --foo'; do
    # shellcheck disable=SC2086  # words
    without_rt "$tree/scuttle" $words
    expect "$words" 0 said '^scuttle solve IN LIST LOG   every'
done
for words in 'solve --help' 'solve -h' 'solve in.mcnf r.list --help' 'solve --learn --help' '--help solve' 'help solve'; do
    # shellcheck disable=SC2086  # words
    without_rt "$tree/scuttle" $words
    expect "$words" 0 said '^scuttle solve IN LIST LOG \['
done
for words in '-V' 'solve -V' 'version' 'check in.mcnf --version'; do
    # shellcheck disable=SC2086  # words
    without_rt "$tree/scuttle" $words
    expect "$words" 0 said '^scuttle [0-9.]*$'
done
without_rt "$tree/scuttle" solve -- in.mcnf --help -V
expect 'what follows two dashes are names' 0 said '^complete '
run test -s ./--help -a -s ./-V
expect 'which are written' 0

run "$root/tests/launcher.d/both" "$program" "$tree/scuttle"
cat "$work/said"
expect 'the launcher takes what the program takes' 0
cd "$work" || exit 1
