#!/usr/bin/env bash
# Imports streams of `git fast-export` and compares the names that `import` prints of all refs with those that Git
# gives them; a ref's name stands for all commits below it. The streams are of a history with merges, renames, modes,
# links, modules, odd names and a commit without a change, and of this repository, each exported in several ways. Then
# `project` and `name` must print the same names, and Git must give them to what `export` writes.
set -u
cd "$(dirname "$0")/.." || exit 1
label=streams
. scripts/lib.sh
needs git mktemp awk sort cmp diff head tr seq rm
begin
own_settings
git config --file "$work/config" core.compression 0
number=0

ident() {
    printf 'A U Thor <a%d@x> %d +0%d00\n' $((number % 3)) $((1700000000 + number)) $((number % 9))
}

data() {
    printf 'data %d\n%s\n' "${#1}" "$1"
}

# a commit's lines before its changes: its ref, its mark, and its parent's mark or nothing
commit() {
    number=$((number + 1))
    printf 'commit %s\nmark :%d\nauthor ' "$1" "$2"
    ident
    printf 'committer '
    ident
    data "message $number"
    [ -z "${3:-}" ] || printf 'from :%d\n' "$3"
}

file() {
    printf 'M %s inline %s\n' "$1" "$2"
    data "$3"
}

history() {
    commit refs/heads/main 1
    file 100644 a/f hello
    file 100755 bin/run echo
    file 120000 link a/f
    printf 'M 160000 3b18e512dba79e4c8300dd08aeb37f8e728b8dad sub\n'
    file 100644 '"sp ace/\303\251\t\"q\""' odd
    file 100644 a.txt 1
    file 100644 a0 2
    for i in $(seq 2 40); do
        commit refs/heads/main "$i" $((i - 1))
        file 100644 "d$((i % 7))/e$((i % 5))/f$((i % 11))" "content $i"
        [ $((i % 6)) -ne 0 ] || printf 'R d%d d%dx\n' $((i % 7)) $((i % 7))
        [ $((i % 9)) -ne 0 ] || printf 'C a "c\\303\\244%d"\n' "$i"
        [ $((i % 10)) -ne 0 ] || printf 'D d%d/e%d\n' $(((i + 1) % 7)) $(((i + 1) % 5))
        printf '\n'
    done
    for side in 1 2 3; do
        commit "refs/heads/side$side" $((100 + side)) $((side * 7))
        file 100644 "side$side/only" "$side"
        printf 'D a\n\n'
    done
    commit refs/heads/main 300 40
    printf 'merge :101\nmerge :102\nmerge :103\n'
    file 100644 side1/only 1
    printf '\n'
    commit refs/heads/empty 301 300
    printf '\n'
    commit refs/heads/main 302 300
    printf 'deleteall\n'
    file 100644 left alone
    printf '\n'
    commit refs/heads/root 303
    file 100644 r root
    printf '\nreset refs/heads/old\nfrom :3\n\n'
}

# the refs of a repository with their names
refs() {
    git -C "$1" for-each-ref --format='%(refname) %(objectname)' | LC_ALL=C sort
}

# what it is, and whether the refs of the file `found` are those of the file `wanted`
agree() {
    if [ -s "$work/wanted" ] && cmp -s "$work/wanted" "$work/found"; then
        right
    else
        wrong "$1: $(diff "$work/wanted" "$work/found" | head -n 3 | tr '\n' ' ')"
    fi
}

# what it is, of the stream in the file `stream`
compare() {
    rm -rf "$work/made" "$work/store"
    git init -q --bare "$work/made"
    if ! git -C "$work/made" fast-import --quiet --depth=0 <"$work/stream"; then
        wrong "$1: Git refuses it"
        return
    fi
    refs "$work/made" >"$work/wanted"
    "$proj" "$work/store" import <"$work/stream" >"$work/found"
    agree "$1"
}

# Whether each commit of a ref has a change. What is shown by `:nop` leaves out those that have none.
has_changes() {
    git -C "$work/made" log --format='%H %T %P' "$1" |
        awk '{ tree[$1] = $2; parent[$1] = $3 } NF != 3 { parent[$1] = "" }
            END { for (it in tree) if (parent[it] != "" && tree[it] == tree[parent[it]]) exit 1 }'
}

named() {
    "$proj" name "$1" :nop <"$work/stream"
}

# For each of the refs the line that the words print, of which REF stands for it.
each() {
    local ref
    while read -r ref _; do
        printf '%s %s\n' "$ref" "$("${@/REF/$ref}")"
    done <"$work/wanted" >"$work/found"
}

# what it is, and what is shown of the store to which it was compared, by each of the ways there are
shown() {
    local ref commit
    refs "$work/made" | while read -r ref commit; do
        ! has_changes "$ref" || printf '%s %s\n' "$ref" "$commit"
    done >"$work/wanted"
    each "$proj" "$work/store" project REF :nop
    agree "$1, by project"
    each named REF
    agree "$1, by name"
    rm -rf "$work/back"
    git init -q --bare "$work/back"
    while read -r ref _; do
        "$proj" "$work/store" export "$ref" :nop | git -C "$work/back" fast-import --quiet --depth=0
    done <"$work/wanted"
    refs "$work/back" >"$work/found"
    agree "$1, by export"
}

# a repository, exported in several ways; `--all` would have HEAD too, where no branch is checked out
export_all() {
    git -C "$2" fast-export --glob='refs/*' --full-tree >"$work/stream"
    compare "$1 by whole trees"
    git -C "$2" fast-export --glob='refs/*' -M -C >"$work/stream"
    compare "$1 with moves and copies"
    git -C "$2" fast-export --glob='refs/*' --signed-tags=strip --tag-of-filtered-object=drop --reencode=yes \
        >"$work/stream"
    compare "$1 with messages encoded anew"
    git -C "$2" fast-export --glob='refs/*' >"$work/stream"
    compare "$1"
    shown "$1"
}

history >"$work/stream"
compare 'a history as it is written'
git init -q --bare "$work/history"
history | git -C "$work/history" fast-import --quiet
export_all 'a history' "$work/history"
if has_history; then
    export_all 'this repository' .
fi
counted
