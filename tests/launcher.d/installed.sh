# What ./install puts and takes away. Sourced by tests/launcher.

cd "$elsewhere" || exit 1
prefix="$work/a prefix"
mkdir -p "$prefix/bin" "$prefix/share/man"
echo 'not ours' >"$prefix/bin/other"
(cd "$prefix" && find . | sort) >before

run "$tree/install" --prefix "$prefix"
expect 'it is installed' 0
for file in bin/scuttle bin/scuttle-plan bin/scuttle-far bin/scuttle-watch bin/scuttle-recheck share/man/man1/scuttle.1 share/man/man1/scuttle-solve.1 \
    share/bash-completion/completions/scuttle share/zsh/site-functions/_scuttle share/doc/scuttle/docs/ANSWERS.md \
    share/doc/scuttle/examples/network.opb; do
    run test -s "$prefix/$file"
    expect "with $file" 0
done
mv "$tree" "$work/moved"
without_rt "$prefix/bin/scuttle" solve in.mcnf r.list r.log
expect 'it runs without the sources' 0 said '^complete 2$'
without_rt "$prefix/bin/scuttle" --version
expect 'and knows its version' 0 said '^scuttle [0-9.]*$'
without_rt "$prefix/bin/scuttle" help check
expect 'and its texts' 0 said '^scuttle check IN LIST LOG'
rm -f r.log
run "$stop_at" r.log "$first_model" INT "$prefix/bin/scuttle" --watch solve long.mcnf r.list r.log
expect 'and lists what a search has found' 10 said '^stopped: [1-9][0-9]* so far in r.list$'
run env -u PYTHONDONTWRITEBYTECODE "$prefix/bin/scuttle-plan" in.mcnf in.list 1
expect 'and its tools run' 0 said '^2 best compromises'
run env -u PYTHONDONTWRITEBYTECODE "$prefix/bin/scuttle-far" in.mcnf in.log
expect 'and those beside the package' 0 said '^s INCOMPLETE 2$'
run test -d "$prefix/lib/scuttle/python/scuttle/__pycache__"
expect 'of which Python keeps something' 0
run "$prefix/bin/scuttle-recheck" in.mcnf in.list in.log
expect 'and the second checker' 0 said '^accepted$'
printf '+1 x1 x2 >= 1 ;\n' >product.opb
run "$prefix/bin/scuttle" solve product.opb r.list r.log
expect 'and explains' 65 warned 'two literals with no sign'
mv "$work/moved" "$tree"
if command -v man >/dev/null; then
    for page in "$prefix"/share/man/man1/*.1; do
        run sh -c "MANWIDTH=200 man --warnings=all -l '$page' 2>&1 >page.txt"
        expect "the page ${page##*/} is formatted" 0
        cp "$work/said" kept.said
        run test ! -s kept.said
        expect 'without a warning' 0
        run grep -q "^NAME" page.txt
        expect 'and has a name' 0
    done
fi
run "$tree/install" --prefix "$prefix"
expect 'it is installed once more' 0
mv "$prefix" "$prefix.moved"
run "$tree/install" --uninstall --prefix "$prefix.moved"
expect 'it is taken away, also where it was moved to' 0
run test -s "$work/warned" -o -s "$work/said"
expect 'without a word' 1
mv "$prefix.moved" "$prefix"
(cd "$prefix" && find . | sort) >after
run cmp before after
expect 'all of it, and nothing else' 0
run "$tree/install" --uninstall --prefix "$prefix"
expect 'which can be done once' 74 warned 'nothing was installed there'

# A list that names files elsewhere, by a name from the root, by a way up, and by a link.
run "$tree/install" --prefix "$prefix"
mkdir "$work/beside"
touch "$work/beside/one" "$work/two" "$work/beside/kept.pyc"
ln -s "$work/beside" "$prefix/linked"
ln -s "$work/beside" "$prefix/lib/scuttle/python/scuttle/__pycache__"
{
    echo "file $work/beside/one"
    echo 'file ../two'
    echo 'file linked/one'
    echo "folder $work/beside"
} >>"$prefix/lib/scuttle/installed"
# A list of an earlier version, which has names from the root.
sed -i "s|^\(f[a-z]* \)\(bin\)|\1$prefix/\2|" "$prefix/lib/scuttle/installed"
run "$tree/install" --uninstall --prefix "$prefix"
expect 'what a list names elsewhere is told' 74 warned 'leads out of .*: ./linked$'
run test -e "$work/beside/one" -a -e "$work/two" -a -e "$work/beside/kept.pyc"
expect 'and stays' 0
rm -r "$work/beside" "$work/two" "$prefix/linked" "$prefix/lib"
(cd "$prefix" && find . | sort) >after
run cmp before after
expect 'while all else is taken away' 0
echo 'not ours' >"$prefix/bin/scuttle"
run "$tree/install" --prefix "$prefix"
expect 'a file that is there stays' 73 warned 'there already.*bin/scuttle$'
run grep -q 'not ours' "$prefix/bin/scuttle"
expect 'as it was' 0
rm "$prefix/bin/scuttle"
(cd "$prefix" && find . | sort) >after
run cmp before after
expect 'and nothing was installed' 0
run setpriv --bounding-set -dac_override,-dac_read_search sh -c "chmod a-w '$prefix/share/man'; '$tree/install' --prefix '$prefix'"
expect 'a folder that takes nothing' 74 warned "can't be written"
chmod u+w "$prefix/share/man"
(cd "$prefix" && find . | sort) >after
run cmp before after
expect 'leaves nothing half installed' 0
run env DESTDIR="$work/stage" "$tree/install" --prefix /usr
expect 'below another root' 0
run test -x "$work/stage/usr/lib/scuttle/release/scuttle"
expect 'it stands there' 0
run env DESTDIR="$work/stage" "$tree/install" --uninstall --prefix /usr
expect 'and is taken away' 0
run test -e "$work/stage/usr"
expect 'with the folders that were made' 1

# Stopped while it puts files: by a `chmod` that sends a signal to all of the group, as a terminal does.
mkdir "$work/signals" "$work/scratch"
printf '#!/bin/sh\n[ -e sent ] || { touch sent; kill -TERM 0; }\nexec %s "$@"\n' "$(type -P chmod)" >"$work/signals/chmod"
chmod +x "$work/signals/chmod"
run setsid -w env TMPDIR="$work/scratch" PATH="$work/signals:$PATH" "$tree/install" --prefix "$prefix"
expect 'an installation that is stopped' 143
(cd "$prefix" && find . | sort) >after
run cmp before after
expect 'leaves nothing half installed' 0
run rmdir "$work/scratch"
expect 'and no folder elsewhere' 0
rm -r "$work/signals" sent

# The package, where python3 looks below the folder.
if python3 -m venv --without-pip "$work/venv" 2>/dev/null; then
    run env PATH="$work/venv/bin:$PATH" "$tree/install" --prefix "$work/venv"
    expect 'it is installed where python3 looks' 0
    mv "$tree" "$work/moved"
    run env -u SCUTTLE "$work/venv/bin/python3" -c 'import scuttle
model = scuttle.Model()
one, two = model.option("one"), model.option("two")
model.at_least(1, one, two)
model.cost("price", 5, one, two)
print(len(model.solve().plans), "plan")'
    expect 'which then has the package' 0 said '^1 plan$'
    mv "$work/moved" "$tree"
    run "$tree/install" --uninstall --prefix "$work/venv"
    expect 'which is taken away' 0
    run "$work/venv/bin/python3" -c 'import scuttle'
    expect 'all of it' 1
fi
for words in '--prefix' '--prefix here' '--frobnicate'; do
    # shellcheck disable=SC2086  # words
    run "$tree/install" $words
    expect "./install $words" 64
done

# Completions: of bash, and with the words that the launcher knows.
complete_words() { # the words so far
    bash -c '. "$1"; shift; COMP_WORDS=("$@") COMP_CWORD=$(($# - 1)); _scuttle; printf "%s\n" "${COMPREPLY[@]}"' - \
        "$root/launcher/completions/scuttle.bash" "$@" 2>/dev/null
}
known() { sed -n "s/^$1='\(.*\)'/\1/p" "$root/launcher/judge.sh" | tr ' ' '\n' | sort; }
known commands >wanted
complete_words scuttle '' | grep -v '^help$\|^version$' | sort >found
run cmp wanted found
expect 'commands are completed' 0
known search_options >wanted
complete_words scuttle solve -- | grep -v '^--help$' | sort >found
run cmp wanted found
expect 'options are completed' 0
complete_words scuttle solve --search bio >found
run grep -qx bioptsat found
expect 'searches are completed' 0
complete_words scuttle solve in.m >found
run grep -qx in.mcnf found
expect 'files are completed' 0
for word in $(known commands) $(known search_options); do
    run grep -q -e "'${word}[:[]" "$root/launcher/completions/_scuttle"
    expect "zsh knows $word" 0
done

# A package, by dpkg below a root of its own.
if command -v dpkg-deb >/dev/null; then
    run "$tree/install" --deb
    expect 'a package is made' 0
    package=$(echo "$elsewhere"/scuttle_*.deb)
    box=$work/box
    mkdir -p "$box/var/lib/dpkg/info" "$box/var/lib/dpkg/updates" "$box/usr/bin"
    touch "$box/usr/bin/other" "$box/var/lib/dpkg/status" "$box/var/lib/dpkg/available"
    box_dpkg() { run dpkg --root="$box" --force-script-chrootless --force-depends --log=/dev/null "$@"; }
    (cd "$box" && find usr | sort) >before
    box_dpkg -i "$package"
    expect 'dpkg installs it' 0
    run "$box/usr/bin/scuttle" solve in.mcnf r.list r.log
    expect 'it runs' 0 said '^complete 2$'
    run env -u PYTHONDONTWRITEBYTECODE "$box/usr/bin/scuttle-plan" in.mcnf r.list 1
    expect 'its tools run' 0 said 'best compromises'
    run "$box/usr/bin/scuttle-recheck" in.mcnf in.list in.log
    expect 'so does the second checker' 0 said '^accepted$'
    run env -u SCUTTLE PYTHONPATH="$box/usr/lib/python3/dist-packages" python3 -c 'import scuttle.running; print(scuttle.running.find_program())'
    expect 'and Python has the package' 0 said 'lib/scuttle/scuttle$'
    run test -d "$box/usr/lib/scuttle/python/scuttle/__pycache__"
    expect 'and Python keeps something of them' 0
    box_dpkg -r scuttle
    expect 'dpkg takes it away' 0
    (cd "$box" && find usr | sort) >after
    run cmp before after
    expect 'all of it' 0
else
    echo 'launcher: there is no dpkg-deb here: the tests of a package are left out'
fi
rm -f before after wanted found
cd "$work" || exit 1
