#!/usr/bin/env bash
# Makes the same histories with real Git and compares its names with those that `proj` prints and that the cases of
# pushes expect.
set -u
cd "$(dirname "$0")/.." || exit 1
label=git
. scripts/lib.sh
needs git mktemp awk cut tail mkdir mv ln rm
begin
own_settings
export GIT_DIR=$work/repo GIT_INDEX_FILE=$work/index
export GIT_AUTHOR_NAME=A GIT_AUTHOR_EMAIL=a@x GIT_AUTHOR_DATE='@1700000000 +0000'
export GIT_COMMITTER_NAME=A GIT_COMMITTER_EMAIL=a@x GIT_COMMITTER_DATE='@1700000000 +0000'
git init -q --bare "$GIT_DIR" || exit 1

# one commit of a stream: message, path, content, and the line of its parent or nothing
commit() {
    printf 'commit refs/heads/main\ncommitter A <a@x> 1700000000 +0000\ndata %d\n%s\n%s' $((${#1} + 1)) "$1" "$4"
    printf 'M 100644 inline %s\ndata %d\n%s\n' "$2" $((${#3} + 1)) "$3"
}

# the tree of a commit (or of nothing) with one file more
with_file() {
    rm -f "$GIT_INDEX_FILE"
    [ -z "$1" ] || git read-tree "$1"
    git update-index --add --cacheinfo "100644,$(printf '%s\n' "$3" | git hash-object -w --stdin),$2"
    git write-tree
}

# the commit of a tree, upon these parents
upon() {
    message=$1
    tree=$2
    shift 2
    printf '%s\n' "$message" | git commit-tree "$tree" "$@"
}

# what the answers of the cases have as the output of a run, the first time that it stands there
expected() {
    awk -v run="$1" '$0 == run { getline; getline; sub(/^  out "/, ""); sub(/\\n"$/, ""); print; exit }' \
        crates/program_cases/stdout
}

# ---- a history, and what is shown of it

{ commit init a/f hello ''; commit beside b/g 1 ''; commit within a/f again ''; } >"$work/history"
git fast-import --quiet <"$work/history"
same 'the last commit of an import' "refs/heads/main $(git rev-parse main)" \
    "$("$proj" "$work/store" import <"$work/history")"
first=$(upon init "$(git rev-parse main~2:a)")
last=$(upon within "$(git rev-parse main:a)" -p "$first")
same 'a projection of three commits' "$last" "$("$proj" name refs/heads/main :/a <"$work/history")"
same 'a projection of one of them' "$(upon beside "$(git rev-parse main:b)")" \
    "$("$proj" name refs/heads/main :/b <"$work/history")"

# ---- a commit that is pushed, and the original one

commit init a/f hello '' | git fast-import --quiet --force
head=$(git rev-parse main)
projected=$(upon init "$(git rev-parse main:a)")
pushed=$(upon push "$(with_file "$projected" g 1)" -p "$projected")
original=$(upon push "$(with_file "$head" a/g 1)" -p "$head")
same 'a push into a directory' "$pushed $original" "$(expected 'run push refs/heads/main :/a < $g')"
{ commit init a/f hello ''; commit push a/g 1 ''; } >"$work/history"
same 'the original commit' "refs/heads/main $original" "$("$proj" "$work/pushed" import <"$work/history")"
same 'the projection of the original commit' "$pushed" "$("$proj" name refs/heads/main :/a <"$work/history")"
again=$(upon push "$(with_file "$pushed" g 2)" -p "$pushed")
same 'a push upon the first' "$again $(upon push "$(with_file "$original" a/g 2)" -p "$original")" \
    "$(expected 'run push refs/heads/main :/a < $second')"
anew=$(upon push "$(with_file '' x x)")
same 'a push of a new directory' "$anew $(upon push "$(with_file "$head" new/x x)" -p "$head")" \
    "$(expected 'run push refs/heads/main :/new < $x')"

# ---- a part that is published, cloned, worked on by Git, and pushed back

# Git outside of the repository above
plain() {
    env -u GIT_DIR -u GIT_INDEX_FILE git "$@"
}

# the store's ref through a filter, as a bare repository
publish() {
    plain init -q --bare "$2"
    "$proj" "$work/store" export refs/heads/main "$1" | plain -C "$2" fast-import --quiet
}

publish :/a "$work/part"
base=$("$proj" "$work/store" project refs/heads/main :/a)
same 'the head of an export' "$(plain -C "$work/part" rev-parse main)" "$base"
publish ':[x=:/a,y=:/b]' "$work/both"
same 'the head of an export of two directories' "$(plain -C "$work/both" rev-parse main)" \
    "$("$proj" "$work/store" project refs/heads/main ':[x=:/a,y=:/b]')"
publish :nop "$work/before"
same 'an export of everything' "$(plain -C "$work/before" rev-parse main)" \
    "$("$proj" "$work/store" project refs/heads/main :nop)"
hidden=$(plain -C "$work/before" rev-parse main:b)
plain clone -q "$work/part" "$work/clone"
mkdir "$work/clone/d"
printf 'new\n' >"$work/clone/d/new file"
plain -C "$work/clone" add d
plain -C "$work/clone" commit -q -m 'a file more'
plain -C "$work/clone" mv f moved
ln -s moved "$work/clone/link"
plain -C "$work/clone" add link
plain -C "$work/clone" commit -q -m 'a file that is moved, and a link'
plain -C "$work/clone" fast-export --reference-excluded-parents refs/heads/main "^$base" |
    "$proj" "$work/store" push refs/heads/main :/a >"$work/lines"
same 'the commits of a push' "$(plain -C "$work/clone" rev-list --reverse "$base..main")" \
    "$(cut -d ' ' -f 1 "$work/lines")"
same 'the projection behind a push' "$(plain -C "$work/clone" rev-parse main)" \
    "$("$proj" "$work/store" project refs/heads/main :/a)"
publish :nop "$work/after"
same 'the originals of a push' "$(plain -C "$work/after" rev-list --reverse main | tail -n 2)" \
    "$(cut -d ' ' -f 2 "$work/lines")"
same 'the tree of a push' "$(plain -C "$work/clone" rev-parse 'main^{tree}')" \
    "$(plain -C "$work/after" rev-parse main:a)"
same 'what is not shown' "$hidden" "$(plain -C "$work/after" rev-parse main:b)"

counted
