# The sentences for what the program refuses. Sourced by tests/launcher.

cd "$elsewhere" || exit 1
kinds=$tree/docs/help/kinds.txt

# Each name that the program has for a refusal has a sentence, in the part of the page where it belongs.
has_sentence() { # the beginning of the part, a kind
    awk -v part="$1" -v kind="  $2 " '/^[^ ]/ { is_part = index($0, part) == 1 } is_part && index($0, kind) == 1 { found = 1 } END { exit !found }' "$kinds"
}
names_in() { # a file of the program's, a function in it
    sed -n "/^\(pub \)\?fn $2/,/^}/s/.*=> .*\"\([A-Za-z]*\)\".*/\1/p" "$root/crates/command_base/src/$1"
}
count=0
while read -r file function part; do
    for kind in $(names_in "$file" "$function"); do
        run has_sentence "$part" "$kind"
        expect "a sentence for $kind: $part" 0
        count=$((count + 1))
    done
done <<'PARTS'
messages.rt kind_name A mistake
messages.rt limit_name A limit
refusals.rt list_why_name An entry of LIST
refusals.rt why_name A line of LOG
refusals.rt reps_why_text An entry of BASE.models
PARTS
run test "$count" -eq 47
expect 'all names were found' 0

printf 'min: x1 ;\n+1 x1 x2 >= 1 ;\n' >product.opb
run "$tree/scuttle" solve product.opb r.list r.log
expect 'the text of a line and its sentence' 65 warned \
    '^scuttle: `+1 x1 x2 >= 1 ;`: two literals with no sign between them: a `;` or `+` is missing in line 1 or 2$'
run sh -c "'$tree/scuttle' solve product.opb r.list r.log 2>&1 | head -n 1"
expect 'stand behind the words of the program' 0 said '^scuttle: line 2: Product$'
printf 'x1 x2 >= 1 ;\n' >product.opb
run "$tree/scuttle" solve product.opb r.list r.log
expect 'in the first line nothing stands before' 65 warned 'is missing in line 1$'
{ printf 'h 1 '; head -c 9000 /dev/zero | tr '\0' 9; printf '\033[2J\n'; } >wild.mcnf
run "$tree/scuttle" solve wild.mcnf r.list r.log
expect 'a long line is cut' 65 warned '^scuttle: `h 1 9\{56\}`: a'
printf 'h \033[2J 0\n' >wild.mcnf
run "$tree/scuttle" solve wild.mcnf r.list r.log
expect 'and a terminal is told nothing by it' 65 warned '^scuttle: `h ?\[2J 0`: a literal'
printf 'o65 1 1 0\n' >wild.mcnf
run "$tree/scuttle" front wild.mcnf r.list
expect 'a limit' 66 warned '^scuttle: `o65 1 1 0`: there are at most 64 objectives$'
run "$tree/scuttle" front long.mcnf r.list
expect 'a limit of the whole file' 66 warned '^scuttle: variables are numbered'
sed 's/^o 0 1/o 0 9/; s/^o 3 1/o 3 9/' in.list >wrong.list
run "$tree/scuttle" check in.mcnf wrong.list in.log
expect 'an entry of a list' 11 warned "^scuttle: .o [0-9 ]*9.: the entry's .o. line isn't what"
printf 's INCOMPLETE 0\n' >wrong.list
run "$tree/scuttle" check in.mcnf wrong.list in.log
expect 'the first line of a list' 11 warned '^scuttle: .s INCOMPLETE 0.: the list begins with'
head -n 2 in.log >wrong.log
run "$tree/scuttle" check in.mcnf in.list wrong.log
expect 'a log that has no end' 11 warned '^scuttle: the log has no .end. line'
printf 'end 77\n' >>wrong.log
run "$tree/scuttle" check in.mcnf in.list wrong.log
expect 'a line of a log, with its number' 11 warned '^scuttle: .end 77.: no line of the number 77 is alive there$'
run "$tree/scuttle" trim in.mcnf in.list wrong.log new.log
expect 'the same of trim' 11 warned 'no line of the number 77'
run "$tree/scuttle" elaborate in.mcnf wrong.log new.log
expect 'the same of elaborate' 11 warned 'no line of the number 77'
run sh -c "'$tree/scuttle' check in.mcnf in.list /dev/stdin <wrong.log"
expect 'a log that is a pipe or a device' 11 warned 'no line of the number 77'
run "$tree/scuttle" models in.mcnf in.list 9 m
expect 'models' 0
cp m.1.log kept.m.1.log
printf 'x\n' >>m.1.log
run "$tree/scuttle" check-models in.mcnf in.list 9 m
expect 'the log of an entry' 11 warned "^scuttle: .x.: "
cp kept.m.1.log m.1.log
run "$tree/scuttle" check-models in.mcnf in.list 1 m
expect 'the models of an entry' 11 warned "^scuttle: there aren't as many"
printf 'h 1 2 0\no3 1 1 0\n' >three.mcnf
run "$tree/scuttle" solve three.mcnf r.list r.log --search bioptsat
expect 'a search that wants two objectives' 64 warned 'want an IN with exactly two objectives'
run sh -c "ulimit -v 12000; '$tree/scuttle' solve long.mcnf r.list r.log"
expect 'want of memory' 71 warned '^scuttle: memory was refused'
without_rt "$tree/scuttle" help kinds
expect 'all sentences' 0 said '^A mistake in IN'
run sh -c "'$tree/scuttle' solve wild.mcnf r.list r.log 2>/dev/full"
expect 'a warning that cannot be written' 66
run sh -c "'$tree/scuttle' solve wild.mcnf r.list r.log 2>&-"
expect 'or that nobody hears' 66
run sh -c "'$tree/scuttle' front in.mcnf /dev/stderr 2>&1"
expect 'a list on standard error' 0 said '^s COMPLETE 2$'
run env TMPDIR=/none "$tree/scuttle" solve wild.mcnf r.list r.log
expect 'with no room for a pipe the program warns itself' 66 warned 'too large'
cd "$work" || exit 1
