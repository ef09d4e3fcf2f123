# What --watch shows. Sourced by tests/launcher.

cd "$elsewhere" || exit 1
rm -f r.log
run "$stop_at" "$work/said" ' models' times:3,terminal:INT "$tree/scuttle" --watch solve long.mcnf r.list r.log
# A terminal's width may cut the line's end.
expect 'a line is rewritten on a terminal' 10 said '[0-9] models, best of each cost [0-9]* [0-9]* [0-9]*, [0-9]* learned a second, log [0-9]'
cp "$work/said" kept.said
run sh -c "tr '\\r' '\\n' <kept.said | grep -c ' models'"
expect 'more than twice' 0 said '^[3-9]\|^[0-9][0-9]'
run "$stop_at" "$work/warned" ' models' INT "$tree/scuttle" solve --watch long.mcnf r.list r.log
expect 'elsewhere it is a line' 10 warned '[0-9.]* s  [0-9]* models, best of each cost [0-9]* [0-9]* [0-9]*, [0-9]* learned a second, log [0-9.]* [kM]B$'
cp "$work/warned" kept.warned
run awk '/ models/ { if ($1 - last < 10) early += 1; last = $1; lines += 1 } END { exit lines < 2 || early > 1 }' kept.warned
expect 'every ten seconds, and at the end' 0
run "$tree/scuttle" solve --watch 'two sites.mcnf' r.list r.log
expect 'a search that ends' 0 said '^complete 2$'
cp "$work/warned" kept.warned
run sh -c "! grep -v ' models' kept.warned"
expect 'shows nothing else' 0
printf 'scuttle proof version 1\nsol x1 x2 : : 0 0\nend 1\n' >old.log
run "$stop_at" "$work/warned" ' models' INT "$tree/scuttle" solve --watch nothing.mcnf r.list old.log
expect 'an older log is waited out' 10 warned '^[0-9.]* s  0 models'
run env PATH="$work/bare" "$tree/scuttle" --watch solve 'two sites.mcnf' r.list r.log
expect 'without Python it is told' 0 warned 'no python3'
run "$tree/scuttle" --watch --time 1 solve long.mcnf r.list /dev/null
expect 'and where the log is no file' 10 warned 'LOG is no file'
printf 'h 1\n' >bad.mcnf
run "$tree/scuttle" --watch solve bad.mcnf r.list r.log
expect 'what is wrong with an instance is said by the program' 65 warned '^scuttle: line 1: ZeroMissing$'
rm -f ended
run "$stop_at" ended x terminal:INT sh -c "ulimit -f 200; '$tree/scuttle' --watch solve long.mcnf r.list r.log; echo x >ended; sleep 60"
cp "$work/said" kept.said
run grep -q "\[Kscuttle: file fault" kept.said
expect 'a warning has a line of its own' 0
for words in 'check --watch long.mcnf r.list r.log' 'solve --watch --watch long.mcnf r.list r.log' 'solve --watch=1 long.mcnf r.list r.log'; do
    # shellcheck disable=SC2086  # words
    run "$tree/scuttle" $words
    expect "$words" 64 warned '[-]-watch'
done
cd "$work" || exit 1
