#!/usr/bin/env bash
# Clones, fetches and pushes parts of a store with an ordinary Git, through contrib/git-remote-proj.
set -u
cd "$(dirname "$0")/.." || exit 1
label=remote
. scripts/lib.sh
needs git mktemp flock realpath awk sed grep cut paste sort head tail seq tee tr dirname sleep mkdir chmod cat cp cmp ln rm \
    wc
begin_reading
own_settings
mkdir "$work/bin" "$work/alone"
for it in bin alone; do
    ln -s "$(realpath "$proj")" "$work/$it/proj"
    ln -s "$PWD/contrib/git-remote-proj" "$work/$it/git-remote-proj"
done
ln -s "$(realpath "$proj_read")" "$work/bin/proj_read"
# One has both programs, and the other one has `proj` alone.
alone=$work/alone:$PATH
export PATH=$work/bin:$PATH
git config --file "$work/config" user.name A
git config --file "$work/config" user.email a@x
git config --file "$work/config" push.default simple
git config --file "$work/config" pull.rebase true
git config --file "$work/config" protocol.allow always
git config --file "$work/config" core.quotePath false
top=$PWD
store=$work/store
main=refs/heads/main

# what is wrong of the words that were run, and what they wrote
wrong_run() {
    wrong "$1"
    sed 's/^/    /' "$work/out"
}

# Runs the words, which must end well.
does() {
    what=$1
    shift
    if "$@" >"$work/out" 2>&1; then right; else wrong_run "$what"; fi
}

# Runs the words, which must fail, and tell the text.
refused() {
    what=$1
    text=$2
    shift 2
    if ! "$@" >"$work/out" 2>&1 && grep -qF -- "$text" "$work/out"; then
        right
    else
        wrong_run "$what: not refused by \`$text\`"
    fi
}

address() {
    printf 'proj::%s#%s#%s' "$store" "$main" "$1"
}

# A clone's files are sound, and its head is what the program says of the filter.
settled() {
    does "$1: fsck" git -C "$work/$2" fsck --strict --no-dangling
    same "$1: nothing else in it" "$(git -C "$work/$2" status --porcelain; printf clean)" clean
    same "$1: its name" "$(proj "$store" project $main "$3")" "$(git -C "$work/$2" rev-parse HEAD)"
}

# The mode, the kind and the content of a path in what is original.
original() {
    rm -rf "$work/all"
    git clone -q "$(address :nop)" "$work/all" || return
    git -C "$work/all" ls-tree HEAD -- "$1" | cut -f 1 | cut -d ' ' -f 1,2
    git -C "$work/all" cat-file blob "HEAD:$1"
}

# Commits a file of a clone: its path and its content.
change() {
    mkdir -p "$(dirname "$work/$1/$2")"
    printf '%s\n' "$3" >"$work/$1/$2"
    git -C "$work/$1" add -A
    git -C "$work/$1" commit -q -m "$2"
}

# ---- a store

git init -q "$work/mono"
mkdir -p "$work/mono/a" "$work/mono/b" "$work/mono/w" "$work/mono/hidden/a"
printf 'nobody sees it\n' | tee "$work/mono/hidden/a/f" >"$work/mono/top"
printf 'one\n' >"$work/mono/a/f"
printf 'two\n' >"$work/mono/b/g"
printf 'x = :/a\ny = :/b\n' >"$work/mono/w/workspace.josh"
git -C "$work/mono" add -A
git -C "$work/mono" commit -q -m first
git -C "$work/mono" fast-export --all >"$work/stream"
does 'an import' "$proj" "$store" import <"$work/stream"

# ---- clones of what is shown

does 'a clone' git clone -q "$(address :/a)" "$work/a"
settled 'a clone' a :/a
same 'the files of a clone' f "$(git -C "$work/a" ls-files)"
does 'a clone of a list' git clone -q "$(address ':[x=:/a,y=:/b]')" "$work/list"
settled 'a clone of a list' list ':[x=:/a,y=:/b]'
same 'the files of a clone of a list' 'x/f y/g' "$(git -C "$work/list" ls-files | paste -sd ' ')"
does 'a clone of a workspace' git clone -q "$(address :workspace=w)" "$work/space"
settled 'a clone of a workspace' space :workspace=w
same 'the files of a clone of a workspace' 'workspace.josh x/f y/g' "$(git -C "$work/space" ls-files | paste -sd ' ')"
does 'a clone of everything' git clone -q "proj::$store" "$work/whole"
same 'the name of everything' "$(git -C "$work/mono" rev-parse HEAD)" "$(git -C "$work/whole" rev-parse HEAD)"
does 'a clone of nothing' git clone -q "$(address :/none)" "$work/none"
same 'a clone of nothing has no commit' none "$(git -C "$work/none" rev-parse -q --verify HEAD || printf none)"
refused 'a store that is not there' 'there is no store' git clone -q "proj::$work/other" "$work/other.clone"
same 'a store that is not there is not made' no "$([ -e "$work/other" ] && printf yes || printf no)"
refused 'a filter that is none' 'filter: ' git clone -q "$(address :/a:)" "$work/bad"

# ---- a push, and what others see of it

change a h 'of a clone'
does 'a push' git -C "$work/a" push -q
settled 'a push' a :/a
same 'the original of a push' '100644 blob of a clone' "$(original a/h | paste -sd ' ')"
same 'what is not shown stays' two "$(original b/g | tail -n 1)"
does 'another clone' git clone -q "$(address :/a)" "$work/late"
change a h 'of a clone again'
does 'a push upon a push' git -C "$work/a" push -q
change late k late
refused 'a late push' 'fetch first' git -C "$work/late" push
does 'a pull' git -C "$work/late" pull -q --rebase
does 'a push after a pull' git -C "$work/late" push -q
settled 'a push after a pull' late :/a
does 'a pull of that' git -C "$work/a" pull -q
settled 'a pull of that' a :/a

# Another clone pushes while Git asks its hook: the store has a commit more when the push comes to it.
racing() {
    printf '#!/bin/sh\nunset GIT_DIR\ncd "%s" && git push -q\n%s\n' "$work/a" "$1" >"$work/late/.git/hooks/pre-push"
    chmod +x "$work/late/.git/hooks/pre-push"
}
change late n racing
change a m first
racing ''
refused 'a push that comes second' 'fetch first' git -C "$work/late" push
change a m again
racing "cd '$work/late' && git fetch -q"
refused 'a push that comes second, after a fetch' 'fetch first' git -C "$work/late" push
rm "$work/late/.git/hooks/pre-push"
does 'a pull after that' git -C "$work/late" pull -q --rebase
does 'a push after that' git -C "$work/late" push -q
settled 'a push after that' late :/a
does 'a pull of a list' git -C "$work/list" pull -q
settled 'a pull of a list' list ':[x=:/a,y=:/b]'
change list y/more 'in b'
does 'a push of a list' git -C "$work/list" push -q
settled 'a push of a list' list ':[x=:/a,y=:/b]'
same 'the original of a push of a list' '100644 blob in b' "$(original b/more | paste -sd ' ')"
does 'a pull of a workspace' git -C "$work/space" pull -q
change space y/most 'in b too'
does 'a push of a workspace' git -C "$work/space" push -q
settled 'a push of a workspace' space :workspace=w
same 'the original of a push of a workspace' '100644 blob in b too' "$(original b/most | paste -sd ' ')"

# Work on a workspace: files that are added, changed, moved and deleted, a mode, a link, and the workspace file itself.
git -C "$work/space" mv x/h x/moved
git -C "$work/space" rm -q y/more
chmod +x "$work/space/x/f"
ln -s f "$work/space/x/to f"
change space y/deep/er 'a new one'
printf 'code = :/a\ny = :/b\n' >"$work/space/workspace.josh"
git -C "$work/space" mv x code
git -C "$work/space" commit -q -a -m 'another place'
change space code/n 'changed there'
does 'a push of another workspace' git -C "$work/space" push -q
settled 'a push of another workspace' space :workspace=w
same 'the original of a file that is moved' '100644 blob of a clone again' "$(original a/moved | paste -sd ' ')"
same 'the original of a mode' '100755 blob one' "$(original a/f | paste -sd ' ')"
same 'the original of a link' '120000 blob f' "$(original 'a/to f' | paste -sd ' ')"
same 'the original of a file behind the workspace file' '100644 blob changed there' "$(original a/n | paste -sd ' ')"
same 'the files of the originals' 'b/deep/er b/g b/most' "$(git -C "$work/all" ls-files b | paste -sd ' ')"

does 'a pull behind a workspace' git -C "$work/list" pull -q
change none f 'of a new directory'
does 'a push of a new directory' git -C "$work/none" push -q origin main
settled 'a push of a new directory' none :/none
same 'the original of a new directory' '100644 blob of a new directory' "$(original none/f | paste -sd ' ')"

# ---- modes, links and names

does 'a pull before that' git -C "$work/a" pull -q
printf 'run\n' >"$work/a/f"
chmod +x "$work/a/f"
ln -s 'a place' "$work/a/a link"
name=$(printf 'a \303\251 "\\ \377 name')
printf 'named\n' >"$work/a/$name"
git -C "$work/a" add -A
git -C "$work/a" commit -q -m 'modes, a link, a name'
does 'a push of modes' git -C "$work/a" push -q
settled 'a push of modes' a :/a
same 'the mode of a file' '100755 blob run' "$(original a/f | paste -sd ' ')"
same 'a link' '120000 blob a place' "$(original 'a/a link' | paste -sd ' ')"
same 'a name' '100644 blob named' "$(original "a/$name" | paste -sd ' ')"

# ---- a file that becomes a directory, and back

change a turned 'a file'
does 'a push of a file' git -C "$work/a" push -q
git -C "$work/a" rm -q turned
change a turned/into/this 'a directory'
change a beside 'a commit more'
does 'a push of a directory' git -C "$work/a" push -q
settled 'a push of a directory' a :/a
same 'a file that became a directory' '100644 blob a directory' "$(original a/turned/into/this | paste -sd ' ')"
git -C "$work/a" rm -q -r turned
change a turned 'a file again'
does 'a push of a file again' git -C "$work/a" push -q
settled 'a push of a file again' a :/a
same 'a directory that became a file' '100644 blob a file again' "$(original a/turned | paste -sd ' ')"

# ---- many commits

for i in $(seq 200); do
    printf '%d\n' "$i" >"$work/a/count"
    git -C "$work/a" add count
    git -C "$work/a" commit -q -m "$i"
done
does 'a push of 200 commits' git -C "$work/a" push -q
settled 'a push of 200 commits' a :/a
same 'the original of the last' '100644 blob 200' "$(original a/count | paste -sd ' ')"

# ---- what is refused

does 'a pull before a path that is not held' git -C "$work/list" pull -q
change list z/out 'nowhere'
refused 'a path that is not held' 'not held: commit 1: z/out' git -C "$work/list" push
git -C "$work/list" reset -q --hard '@{upstream}'
refused 'a forced push' 'never forced' git -C "$work/a" push -f origin +HEAD~1:main
refused 'a new branch' "only $main" git -C "$work/a" push origin HEAD:refs/heads/other
refused 'a branch that goes' 'cannot be deleted' git -C "$work/a" push origin :main
git -C "$work/a" tag -a -m tag v1
refused 'a tag' "only $main" git -C "$work/a" push origin v1
git -C "$work/a" checkout -q -b side HEAD~1
change a side 'of a side'
git -C "$work/a" checkout -q main
git -C "$work/a" merge -q -m merge side
refused 'a merge of what is not there' "does not show the merged $(git -C "$work/a" rev-parse side)" \
    git -C "$work/a" push origin main
git -C "$work/a" reset -q --hard '@{upstream}'
git -C "$work/a" -c i18n.commitEncoding=latin1 commit -q --allow-empty -m "$(printf '\351')"
refused 'an encoding' 'names an encoding' git -C "$work/a" push
git -C "$work/a" reset -q --hard '@{upstream}'
change a signed signed
signature='gpgsig -----BEGIN PGP SIGNATURE-----\n -----END PGP SIGNATURE-----'
signed=$(git -C "$work/a" cat-file commit HEAD | awk -v line="$signature" '/^$/ && !n++ { print line } 1' |
    git -C "$work/a" hash-object -t commit -w --stdin)
git -C "$work/a" reset -q --hard "$signed"
refused 'a signed commit' 'is signed' git -C "$work/a" push
git -C "$work/a" reset -q --hard '@{upstream}'
git -C "$work/a" commit -q --allow-empty -m 'nothing'
refused 'a commit without a change' 'no change: commit 1' git -C "$work/a" push
git -C "$work/a" reset -q --hard '@{upstream}'
settled 'after what was refused' a :/a

# ---- merges

store=$work/joined
part=a

# Puts the monorepo's branches into the store.
publish() {
    git -C "$work/many" fast-export --use-done-feature --branches >"$work/stream"
    does 'an import of branches' proj "$store" import <"$work/stream"
}

# Makes a branch of the monorepo upon a commit of it: its name, the commit, and a file that it changes behind one in
# `b`.
branch() {
    git -C "$work/many" checkout -q -b "$1" "$2"
    change many "b/$1" 'not shown'
    change many "$3" "of $1"
    git -C "$work/many" checkout -q main
    publish
}

# Fetches branches of the store, each as a remote of its own of a clone.
fetched() {
    local clone=$1 name
    shift
    for name in "$@"; do
        git -C "$work/$clone" remote add "$name" "proj::$store#refs/heads/$name#:/$part"
        does "a fetch of $name" git -C "$work/$clone" fetch -q "$name"
    done
}

# Has the monorepo fetch a branch to which a clone has pushed.
taken_back() {
    does "the monorepo fetches $1" git -C "$work/many" fetch -q "proj::$store#refs/heads/$1" "$1:$1"
}

# The name that a ref has in a fresh repository, into which it is exported by a filter.
exported() {
    rm -rf "$work/fresh"
    git init -q --bare "$work/fresh"
    proj "$store" export "$1" "$2" | git -C "$work/fresh" fast-import --quiet
    git -C "$work/fresh" fsck --strict --no-dangling >"$work/out" 2>&1 || printf 'not sound '
    git -C "$work/fresh" rev-parse -q --verify "$1" || printf 'none\n'
}

# authors, dates and messages of the last commits of a line of first parents
told() {
    git -C "$work/$1" log --first-parent -n "$3" --format='%an %ae %ad %cn %cd %B' "$2"
}

# What came of a clone's push of so many commits: the clone is as the store and a fresh export, and the monorepo pulls
# the originals. The last has the parents that are given, behind the original before it.
joined() {
    local it=$1 clone=$2 count=$3 old
    shift 3
    settled "$it" "$clone" ":/$part"
    same "$it: an export" "$(git -C "$work/$clone" rev-parse HEAD)" "$(exported $main ":/$part")"
    old=$(git -C "$work/many" rev-parse main)
    does "$it: the monorepo pulls" git -C "$work/many" pull -q --ff-only store main
    does "$it: fsck of the monorepo" git -C "$work/many" fsck --strict --no-dangling
    same "$it: what they stand upon" "$old" "$(git -C "$work/many" rev-parse "main~$count")"
    same "$it: the parents" "$(git -C "$work/many" rev-parse main~1 "$@" | paste -sd ' ')" \
        "$(git -C "$work/many" log -1 --format=%P main)"
    same "$it: what they say" "$(told "$clone" HEAD "$count")" "$(told many main "$count")"
    same "$it: the tree" "$(git -C "$work/$clone" rev-parse 'HEAD^{tree}')" \
        "$(git -C "$work/many" rev-parse "main:$part")"
    same "$it: what is not shown" "$(git -C "$work/many" rev-parse "$old:b")" \
        "$(git -C "$work/many" rev-parse main:b)"
}

git init -q "$work/many"
git -C "$work/many" remote add store "proj::$store"
change many b/g two
change many a/f one
publish
branch ours main a/ours
does 'a clone that merges' git clone -q "$(address :/a)" "$work/m"
fetched m ours

# By rule 2 a merge is no commit of its own where it has the tree of a parent that descends from the others, and by
# rule 1 it is one. A merge that takes nothing of a branch with work of its own is one by both.
does 'rule 2' proj "$store" rule 2
change m x 'of the clone'
git -C "$work/m" merge -q -s ours -m 'nothing of theirs' ours/ours
does 'a push of a merge that takes nothing' git -C "$work/m" push -q
joined 'a merge that takes nothing' m 2 ours
branch ahead main a/ahead
fetched m ahead
git -C "$work/m" merge -q --no-ff --no-edit ahead/ahead
refused 'a merge that rule 2 drops' 'no change: commit 1' git -C "$work/m" push
does 'rule 1' proj "$store" rule 1
does 'a push of that merge by rule 1' git -C "$work/m" push -q
joined 'a merge that changes nothing' m 1 ahead

# A diamond: work of the clone and of a branch upon one commit. The last commit of the branch changes nothing that is
# shown, so the one before it is the first with this projection.
branch dev main a/dev
git -C "$work/many" checkout -q dev
change many b/more 'nor is it shown'
git -C "$work/many" checkout -q main
publish
fetched m dev
change m y 'of the clone too'
does 'a pull of a branch' git -C "$work/m" pull -q --no-rebase --no-edit dev dev
does 'a push of a diamond' git -C "$work/m" push -q
joined 'a diamond' m 2 dev~1

# Two merges with a commit between them, and a merge of three.
branch one main a/one
branch two main~1 a/two
fetched m one two
git -C "$work/m" merge -q --no-ff --no-edit one/one
change m between 'two merges'
git -C "$work/m" merge -q --no-edit two/two
does 'a push of two merges' git -C "$work/m" push -q
joined 'two merges' m 3 two
same 'the parents of the first of two merges' "$(git -C "$work/many" rev-parse main~3 one | paste -sd ' ')" \
    "$(git -C "$work/many" log -1 --format=%P main~2)"
branch three main~1 a/three
branch four main~2 a/four
branch five main a/five
fetched m three four five
change m beside 'three branches'
git -C "$work/m" merge -q --no-edit three/three four/four five/five >"$work/out" 2>&1
does 'a push of a merge of three' git -C "$work/m" push -q
joined 'a merge of three' m 2 three four five

# A merge of a commit of the same push, and of one that was pushed before.
change m t 'first'
change m u 'second'
git -C "$work/m" reset -q --hard "$(git -C "$work/m" commit-tree -p HEAD -p HEAD~1 -m 'of this push' 'HEAD^{tree}')"
does 'a push of a merge of itself' git -C "$work/m" push -q
joined 'a merge of a commit of the same push' m 3 main~2
git -C "$work/m" reset -q --hard "$(git -C "$work/m" commit-tree -p HEAD -p HEAD~1 -m 'pushed before' 'HEAD~2^{tree}')"
does 'a push of a merge of what was pushed before' git -C "$work/m" push -q
joined 'a merge of a commit that was pushed before' m 1 main~2

# A late push. What the clone pulled is no first parent, so its own work goes to a branch, and is merged from there.
does 'a clone that is late' git clone -q "$(address :/a)" "$work/behind"
change m v 'first'
does 'a push before the late one' git -C "$work/m" push -q
joined 'a push before the late one' m 1
change behind w 'late'
refused 'a late push before a merge' 'fetch first' git -C "$work/behind" push
does 'a pull that merges' git -C "$work/behind" pull -q --no-rebase --no-edit
cp "$store" "$work/before"
refused 'a late push with a merge' "do not lead to the fetched commit $(git -C "$work/m" rev-parse HEAD)" \
    git -C "$work/behind" push
does 'it changed nothing' cmp "$store" "$work/before"
git -C "$work/many" branch aside main~1
publish
fetched behind aside
does 'a push of late work to a branch' git -C "$work/behind" push -q aside HEAD^1:refs/heads/aside
taken_back aside
git -C "$work/behind" reset -q --hard origin/main
git -C "$work/behind" merge -q --no-edit aside/aside
does 'a push of late work that is merged' git -C "$work/behind" push -q
joined 'late work that is merged' behind 1 aside

# A branch of the clone alone, which the store takes first.
does 'a pull after that' git -C "$work/m" pull -q
git -C "$work/m" checkout -q -b own HEAD~1
change m own 'of the clone alone'
git -C "$work/m" checkout -q main
git -C "$work/m" merge -q --no-edit own
cp "$store" "$work/before"
refused 'a merge of what the store does not show' "does not show the merged $(git -C "$work/m" rev-parse own)" \
    git -C "$work/m" push
does 'that changed nothing' cmp "$store" "$work/before"
git -C "$work/many" branch own main~1
publish
fetched m own
does 'a push of a branch' git -C "$work/m" push -q own own
taken_back own
does 'a push of a merge of it' git -C "$work/m" push -q
joined 'a merge of a branch that was pushed' m 1 own

# A parent twice, and an original's name, which Git writes of no commit.
merging() {
    printf 'commit %s\ncommitter A <a@x> 1700000000 +0000\ndata 4\nhand\nfrom %s\nmerge %s\n' \
        $main "$(git -C "$work/m" rev-parse HEAD)" "$1"
    printf 'M 100644 inline hand\ndata 4\nhand\n'
}

# what it is, the status and the text that a push of it is answered with, and the name that it merges
answered() {
    merging "$4" >"$work/stream"
    proj "$store" push --merges $main :/a <"$work/stream" >"$work/out" 2>&1
    same "$1" "$2 $3" "$? $(cat "$work/out")"
}
dev=$(proj "$store" project refs/heads/dev :/a)
cp "$store" "$work/before"
answered 'a parent twice' 28 'repeated parent: commit 1' "$(git -C "$work/m" rev-parse HEAD)"
answered "an original's name" 5 "unresolved at $(merging x | sed '/^merge/,$d' | wc -c)" \
    "$(git -C "$work/many" rev-parse dev)"
merging "$dev" >"$work/stream"
same 'merges without their word' 'merge: commit 1' "$(proj "$store" push $main :/a 2>&1 <"$work/stream")"
does 'refusals change nothing' cmp "$store" "$work/before"

# Of a part that only a branch has.
part=n
branch new main n/f
does 'a clone without a commit' git clone -q "$(address :/n)" "$work/root"
fetched root new
change root own 'a root'
git -C "$work/root" merge -q --no-edit --allow-unrelated-histories new/new
does 'a push of roots that are merged' git -C "$work/root" push -q origin main
joined 'roots that are merged' root 2 new

for ref in $(git -C "$work/many" for-each-ref --format='%(refname)' refs/heads); do
    same "all of $ref" "$(git -C "$work/many" rev-parse "$ref")" "$(proj "$store" project "$ref" :nop)"
    same "an export of all of $ref" "$(git -C "$work/many" rev-parse "$ref")" "$(exported "$ref" :nop)"
    name=$(proj "$store" project "$ref" :/a)
    same "what is shown of $ref" "$name" "$(exported "$ref" :/a)"
    branch=${ref##*/}
    fetched=$(git -C "$work/m" rev-parse -q --verify "refs/remotes/$branch/$branch") || continue
    same "what a clone has of $ref" "$name" "$fetched"
done
does 'a pull of all that' git -C "$work/m" pull -q
settled 'a pull of all that' m :/a
store=$work/store

# ---- what is not shown

does 'a fetch of everything' git -C "$work/whole" fetch -q
same 'the first commit is there still' "$(git -C "$work/mono" rev-parse HEAD)" \
    "$(git -C "$work/whole" rev-list --max-parents=0 origin/main)"
same 'what all of this has changed' 'a b none w' \
    "$(git -C "$work/whole" diff -z --name-only HEAD origin/main | tr '\0' '\n' | cut -d / -f 1 | LC_ALL=C sort -u |
        paste -sd ' ')"

# ---- a fetch that was cut off

# Programs whose streams end in the middle.
for it in bin alone; do
    mkdir "$work/short.$it"
    for program in proj proj_read; do
        cat >"$work/short.$it/$program" <<END
#!/bin/sh
case \$2 in new | export) "$work/bin/$program" "\$@" | head -c 2000 ;; *) exec "$work/bin/$program" "\$@" ;; esac
END
        chmod +x "$work/short.$it/$program"
    done
done
rm "$work/short.alone/proj_read"
for it in "bin:$PATH" "alone:$alone"; do
    rm -rf "$work/half"
    git init -q "$work/half"
    git -C "$work/half" remote add origin "$(address :/a)"
    refused 'a fetch that is cut off' 'proj: ' env PATH="$work/short.$it" git -C "$work/half" fetch -q
    same 'no ref of a fetch that was cut off' none "$(git -C "$work/half" for-each-ref; printf none)"
    does 'a fetch after that' git -C "$work/half" fetch -q
    does 'its files' git -C "$work/half" reset -q --hard origin/main
    settled 'a fetch after that' half :/a
done
does 'a clone that is cut off begins' git clone -q --no-checkout "$(address :/a)" "$work/cut"
rm -rf "$work/cut/.git/objects/pack" "$work/cut/.git/refs/remotes"
mkdir "$work/cut/.git/objects/pack"
does 'what is lost is fetched again' git -C "$work/cut" fetch -q
does 'a clone that was cut off' git -C "$work/cut" reset -q --hard '@{upstream}'
settled 'a clone that was cut off' cut :/a

# ---- how often the program is called

# Programs that note each call, and keep what it was asked and what it wrote last.
mkdir "$work/noted"
for program in proj proj_read; do
    cat >"$work/noted/$program" <<END
#!/bin/sh
printf '%s\n' "\$2" >>"$work/calls"
printf '%s\n' "\$*" >"$work/words"
"$work/bin/$program" "\$@" >"$work/wrote"
status=\$?
cat "$work/wrote"
exit "\$status"
END
    chmod +x "$work/noted/$program"
done

# The calls while the words run, which must end well.
calls() {
    : >"$work/calls"
    PATH=$work/noted:$PATH "$@" >"$work/out" 2>&1 || printf 'failed '
    paste -sd ' ' <"$work/calls"
}
does 'a pull before calls are counted' git -C "$work/a" pull -q
same 'the calls of a fetch of nothing new' new "$(calls git -C "$work/a" fetch -q)"
same 'the calls of a push of nothing new' batch "$(calls git -C "$work/a" push -q)"
does 'another pull before calls are counted' git -C "$work/late" pull -q
change a counted 'once'
same 'the calls of a push' 'batch push' "$(calls git -C "$work/a" push -q)"
old=$(git -C "$work/late" rev-parse HEAD)
same 'the calls of a fetch' new "$(calls git -C "$work/late" fetch -q)"
same 'it says what the clone has' yes "$(grep -q -- " :/a .*$old" "$work/words" && printf yes)"
same 'it gets what is new' 1 "$(grep -c '^commit ' "$work/wrote")"
does 'its files are there' git -C "$work/late" merge -q --ff-only '@{upstream}'
settled 'after calls that were counted' late :/a
same 'the calls of a clone' new "$(calls git clone -q "$(address :/a)" "$work/noted.a")"
same 'nothing is left in the clone' none "$(ls "$work/noted.a/.git" | grep '^proj' || printf none)"

# ---- annotated tags, also without `proj_read`

# The tags of a clone, and those that the store has for it.
same_tags() {
    same "$1" "$(proj "$store" tags $main :/a | LC_ALL=C sort; printf end)" "$(
        git -C "$work/$2" for-each-ref --format='%(refname:strip=2) %(objectname)' refs/tags | LC_ALL=C sort
        printf end
    )"
    does "$1: fsck" git -C "$work/$2" fsck --strict --no-dangling
}

# Puts the monorepo and its tags into the store.
publish_tags() {
    git -C "$work/tagged" fast-export --use-done-feature --branches --tags >"$work/stream"
    does 'an import of tags' proj "$store" import "$@" <"$work/stream"
}

for it in "with:$PATH" "alone:$alone"; do
    store=$work/tags.${it%%:*}
    clone=tags.${it%%:*}.clone
    before=$PATH
    PATH=${it#*:}
    rm -rf "$work/tagged"
    git init -q "$work/tagged"
    change tagged b/g two
    git -C "$work/tagged" tag -a -m 'not shown' other
    change tagged a/f one
    git -C "$work/tagged" tag -a -m 'the first' v1
    change tagged b/h three
    git -C "$work/tagged" tag -a -m 'shown by the commit before' rel/v2
    git -C "$work/tagged" tag light
    change tagged a/g four
    git -C "$work/tagged" tag -a -m 'an odd name' "$(printf 'caf\303\251"')"
    publish_tags
    does 'a clone with tags' git clone -q "$(address :/a)" "$work/$clone"
    same_tags 'a clone with tags' "$clone"
    same 'how many tags it has' 3 "$(git -C "$work/$clone" tag | wc -l)"
    does 'a clone of one branch' git clone -q --single-branch "$(address :/a)" "$work/$clone.single"
    same_tags 'a clone of one branch' "$clone.single"
    does 'a clone without tags' git clone -q --no-tags "$(address :/a)" "$work/$clone.none"
    same 'a clone without tags' none "none$(git -C "$work/$clone.none" tag)"
    same 'nor has it their objects' none "none$(git -C "$work/$clone.none" cat-file --batch-all-objects \
        --batch-check='%(objecttype)' | grep tag)"
    same 'the tags of the address' 3 "$(git ls-remote -q --tags "$(address :/a)" | grep -c refs/tags/)"

    # Tags of new commits come with these, and tags of others where all tags are asked for.
    change tagged a/g five
    git -C "$work/tagged" tag -a -m 'of a new commit' new
    publish_tags
    does 'a fetch of a commit with a tag' git -C "$work/$clone" fetch -q
    same_tags 'a fetch of a commit with a tag' "$clone"
    does 'a fetch without tags' git -C "$work/$clone.none" fetch -q
    same 'a fetch without tags' none "none$(git -C "$work/$clone.none" tag)"
    git -C "$work/tagged" tag -a -m 'of an old commit' old HEAD~2
    publish_tags
    does 'a fetch of no new commit' git -C "$work/$clone" fetch -q
    same 'a tag of an old commit' none "none$(git -C "$work/$clone" tag -l old)"
    does 'a fetch of tags' git -C "$work/$clone" fetch -q --tags
    same_tags 'a fetch of tags' "$clone"
    does 'a fetch of all tags' git -C "$work/$clone.none" fetch -q --tags
    same_tags 'a fetch of all tags' "$clone.none"
    git -C "$work/tagged" tag -a -f -m 'another word' v1 'v1^{commit}' >"$work/out" 2>&1
    publish_tags --force
    does 'a fetch of tags that moved' git -C "$work/$clone" fetch -q --tags --force
    same_tags 'a fetch of tags that moved' "$clone"

    # A push knows them.
    does 'a pull with tags' git -C "$work/$clone" pull -q
    change "$clone" pushed 'with tags'
    does 'a push with tags' git -C "$work/$clone" -c push.followTags=true push -q
    settled 'a push with tags' "$clone" :/a
    does 'a push of tags that are there' git -C "$work/$clone" push -q --tags
    git -C "$work/$clone" tag -a -m own own
    refused 'a push of a tag' "only $main" git -C "$work/$clone" push -q --tags

    # Git's importer writes this tagger in its own way.
    printf 'tag odd\nfrom %s\ntagger <a@x> 1700000000 +0000\ndata 4\nodd\n' "$(git -C "$work/tagged" rev-parse main)" |
        proj "$store" import >"$work/out" || wrong 'an odd tagger is refused'
    refused 'a tag that Git does not make' "Git makes no $(proj "$store" tags $main :/a | sed -n 's/^odd //p')" \
        git -C "$work/$clone" fetch -q --tags
    does 'a fetch beside such a tag' git -C "$work/$clone" fetch -q
    does 'a clone without such a tag' git clone -q --no-tags "$(address :/a)" "$work/$clone.odd"
    PATH=$before
done
store=$work/store

# ---- without `proj_read`

does 'a clone without proj_read' env PATH="$alone" git clone -q "$(address :/a)" "$work/slow"
settled 'a clone without proj_read' slow :/a
change a slow 'to be fetched'
does 'a push before a fetch without proj_read' git -C "$work/a" push -q
does 'a fetch without proj_read' env PATH="$alone" git -C "$work/slow" pull -q
settled 'a fetch without proj_read' slow :/a

# ---- a store that can only be read

# Runs the words as somebody who may not write the store.
reading() {
    if [ -w "$work/reader/store" ]; then
        setpriv --reuid=65534 --regid=65534 --clear-groups env HOME="$work/reader/own" PATH="$work/reader:$PATH" "$@"
    else
        env PATH="$work/reader:$PATH" "$@"
    fi
}
mkdir "$work/reader" "$work/reader/own"
cp "$store" "$work/reader/store"
chmod 444 "$work/reader/store"
{
    printf 'commit %s\nmark :1\ncommitter A <a@x> 1700000000 +0000\ndata 2\nx\nM 100644 inline a/f\ndata 2\nf\n' $main
    printf 'tag v1\nfrom :1\ntagger A <a@x> 1700000000 +0000\ndata 2\nt\n'
} | proj "$work/reader/tagged" import >"$work/out" || wrong 'an import of a tag'
chmod 444 "$work/reader/tagged"
if [ ! -w "$work/reader/store" ] || setpriv --reuid=65534 --regid=65534 --clear-groups true 2>"$work/out"; then
    cp "$proj" "$work/reader/proj"
    cp "$proj_read" "$work/reader/proj_read"
    cp contrib/git-remote-proj "$work/reader/git-remote-proj"
    cp "$work/config" "$work/reader/config"
    chmod 755 "$work" "$work/reader" "$work/reader"/*
    chmod 444 "$work/reader/store" "$work/reader/tagged"
    [ ! -w "$work/reader/store" ] || chmod 777 "$work/reader/own"
    cd "$work/reader/own" || exit 1
    address="proj::$work/reader/store#$main#:/a"
    does 'a clone of a store that can only be read' reading git clone -q "$address" clone
    same 'its name' "$(proj "$store" project $main :/a)" "$(reading git -C clone rev-parse HEAD)"
    does 'a fetch from it' reading git -C clone fetch -q
    does 'a commit upon it' reading git -C clone commit -q --allow-empty -m own
    refused 'a push to it' 'the store cannot be written' reading git -C clone push
    does 'it is as it was' cmp "$store" "$work/reader/store"
    does 'a clone of a tag' reading git clone -q "proj::$work/reader/tagged#$main#:/a" tagged
    same 'its tag' "$(proj "$work/reader/tagged" tags $main :/a)" \
        "$(reading git -C tagged for-each-ref --format='%(refname:strip=2) %(objectname)' refs/tags)"
    cd "$top" || exit 1
fi

# ---- what is told

does 'a quiet clone' git clone -q "$(address :/a)" "$work/told"
same 'what a quiet clone tells' nothing "nothing$(cat "$work/out")"
rm -rf "$work/told"
does 'a clone' git clone "$(address :/a)" "$work/told"
same 'what a clone tells' nothing "nothing$(grep -v "^Cloning into '$work/told'...$" "$work/out")"
rm -rf "$work/told"
does 'a clone with progress' git clone --progress "$(address :/a)" "$work/told"
count=$(git -C "$work/told" rev-list --count HEAD)
same 'its progress' "$(seq -f 'proj: commits: %g' 100 100 "$count"; printf 'proj: commits: %d, done.' "$count")" \
    "$(tr '\r' '\n' <"$work/out" | grep '^proj: ')"
settled 'a clone with progress' told :/a
rm -rf "$work/told"
does 'a clone with words' git clone -v "$(address :/a)" "$work/told"
same 'the words of a clone' yes "$(grep -q '^fast-import statistics:' "$work/out" && printf yes)"
change a told 'once more'
does 'a push before that' git -C "$work/a" push -q
does 'a fetch with progress' git -C "$work/told" fetch --progress
same 'the progress of a fetch' 'proj: commits: 1, done.' "$(grep '^proj: ' "$work/out")"
does 'a fetch of nothing with progress' git -C "$work/told" fetch --progress
same 'the progress of a fetch of nothing' nothing "nothing$(cat "$work/out")"

# ---- a push that is only tried

change told tried 'once'
does 'a pull before a trial' git -C "$work/told" pull -q
does 'a look before a trial, of which the store keeps what it finds' proj "$store" project $main :/a
cp "$store" "$work/before"
does 'a trial' git -C "$work/told" push --dry-run
does 'a trial changes nothing' cmp "$store" "$work/before"
git -C "$work/told" -c i18n.commitEncoding=latin1 commit -q --allow-empty -m "$(printf '\351')"
refused 'a trial of an encoding' 'names an encoding' git -C "$work/told" push --dry-run
git -C "$work/told" reset -q --hard HEAD~1
change a first 'before'
does 'a push before a trial' git -C "$work/a" push -q
refused 'a trial that is late' 'fetch first' git -C "$work/told" push --dry-run
does 'a pull behind a trial' git -C "$work/told" pull -q
does 'a push behind a trial' git -C "$work/told" push -q
settled 'a push behind a trial' told :/a
does 'a pull behind all that' git -C "$work/a" pull -q

# ---- addresses

cd "$work" || exit 1
does 'a clone by a relative path' git clone -q "proj::store#$main#:/a" beside
does 'a fetch of that' git -C "$work/beside" fetch -q
settled 'a clone by a relative path' beside :/a
does 'another name of a remote' git -C "$work/beside" remote add other "proj::../store#$main#:/a"
does 'a fetch by a relative path' git -C "$work/beside" fetch -q other
same 'a path that stays relative' "proj::../store#$main#:/a" "$(git -C "$work/beside" config remote.other.url)"
mkdir -p 'place #1'
cp store 'place #1/50%23 #store'
does 'a clone by a path with #' git clone -q "proj::place %231/50%2523 %23store#$main#:/a" hash
does 'a fetch of that' git -C "$work/hash" fetch -q
settled 'a clone by a path with #' hash :/a
cd 'place #1' || exit 1
does 'a clone in a place with #' git clone -q 'proj::50%2523 %23store##:/a' ../inner
does 'a fetch of that' git -C "$work/inner" fetch -q
same 'what is asked without a repository' "$(git -C "$work/inner" rev-parse HEAD)" \
    "$(git ls-remote -q "proj::$store##:/a" $main | cut -f 1)"
cd "$top" || exit 1

# ---- a store that another process has

exec 8<"$store"
flock -x 8 || wrong 'no lock is taken'
refused 'a store that is in use' 'another process has it' env PROJ_WAIT=1 git -C "$work/a" fetch
(sleep 1; flock -u 8) &
does 'a fetch that waits' git -C "$work/a" fetch -q
wait
exec 8<&-
(flock -x 9; sleep 1; : >"$work/over") 9<"$store.lock" &
sleep 0.2
change a turn 'in its turn'
does 'a push that waits its turn' git -C "$work/a" push -q
does 'it comes behind who was there' test -e "$work/over"
wait
settled 'a push that waits its turn' a :/a

# A program whose first push is told a store fault, made or not.
mkdir "$work/faulty"
cat >"$work/faulty/proj" <<END
#!/bin/sh
[ "\$2" = push ] && [ -e "$work/fault" ] || exec "$work/bin/proj" "\$@"
[ ! -s "$work/fault" ] || "$work/bin/proj" "\$@" >/dev/null
rm "$work/fault"
printf 'store fault\n' >&2
exit 24
END
chmod +x "$work/faulty/proj"
: >"$work/fault"
change a fault 'not made at first'
does 'a push behind a fault' env PATH="$work/faulty:$PATH" git -C "$work/a" push -q
settled 'a push behind a fault' a :/a
printf 'made\n' >"$work/fault"
change a fault 'made, and told a fault'
does 'a push that was made with a fault' env PATH="$work/faulty:$PATH" git -C "$work/a" push -q
settled 'a push that was made with a fault' a :/a
same 'both faults came' gone "$([ -e "$work/fault" ] || printf gone)"
# ---- the commands that README tells first
mkdir -p "$work/story"
cd "$work/story" || exit 1
git init -q mono
mkdir mono/lib mono/other
printf 'notes\n' | tee mono/lib/notes >mono/other/notes
git -C mono add -A
git -C mono commit -q -m first
awk '/^## / { on = /from day to day/ } on && sub(/^    /, "")' "$top/README.md" >commands
does 'the commands of README' bash -e commands
same 'what they change' 'lib/notes' "$(git -C mono diff --name-only main~2 main~1)"
same 'what the files are' "$(printf 'notes\na line more\nby all')" "$(cat mono/lib/notes)"
same 'nothing else' clean "$(git -C mono status --porcelain; printf clean)"
same 'what the store has' "$(git -C mono rev-parse main)" "$(proj mono.store project $main :nop)"
same 'what the clone has' "$(git -C mono rev-parse main:lib)" "$(git -C lib rev-parse 'main^{tree}')"
counted
