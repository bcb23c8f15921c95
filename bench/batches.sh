#!/usr/bin/env bash
# Times entries of one batch on a journal, beside Git's commands for the same: a commit more, its projection, and a
# pushed commit. Its words are the number of commits (5700) and how many entries of each kind (100). With `SUBTREE=1`
# it also times `git subtree split`, which takes minutes. Each entry that changes the store waits for the disk twice:
# `TMPDIR=/dev/shm` leaves that out.
set -u
cd "$(dirname "$0")/.." || exit 1
label=batches
. scripts/lib.sh
needs git mktemp awk
needs_clock
begin
own_settings
commits=${1:-5700}
entries=${2:-100}
export GIT_AUTHOR_NAME=A GIT_AUTHOR_EMAIL=a@x GIT_COMMITTER_NAME=A GIT_COMMITTER_EMAIL=a@x
main=refs/heads/main

awk -v last="$commits" 'BEGIN {
    for (i = 1; i <= last; i++) {
        printf "commit refs/heads/main\nmark :%d\ncommitter A <a@x> %d +0000\ndata 7\nchange\n", i, 1700000000 + i
        if (i > 1) printf "from :%d\n", i - 1
        for (j = 0; j < 10; j++) {
            k = (i * 7 + j * 101) % 1000
            text = "line " i " " j " of a file that is changed, and that has a few words more than its number\n"
            printf "M 100644 inline %sd%d/f%d\ndata %d\n%s\n", k % 2 ? "a/" : "b/", int(k / 20), k, length(text), text
        }
    }
}' >"$work/stream"
"$proj" "$work/first" import <"$work/stream" >"$work/out" || exit 1
"$proj" "$work/first" project $main :/a >"$work/out" || exit 1

# entries with one commit each, upon the ref as it is then, and behind each the words that are given
batch() {
    local words=$1 dir=$2 after=$3 i input
    for ((i = 0; i < entries; i++)); do
        input=$(
            printf 'commit %s\ncommitter A <a@x> %d +0000\ndata 2\nc\nfrom %s^0\n' $main $((1800000000 + i)) $main
            printf 'M 100644 inline %sd3/new\ndata %d\n%d' "$dir" ${#i} "$i"
        )
        printf '%s\nbytes %d\n%s\n' "$words" ${#input} "$input"
        [ -z "$after" ] || printf '%s\nbytes 0\n\n' "$after"
    done
}

# microseconds of the clock that the batch takes on a copy of the store; of three runs the least
taken() {
    local best='' begun took i
    for i in 1 2 3; do
        cp "$work/first" "$work/store"
        begun=${EPOCHREALTIME/[.,]/}
        "$proj" "$work/store" batch <"$1" >"$work/replies" || exit 1
        took=$((${EPOCHREALTIME/[.,]/} - begun))
        [ "$(grep -c '^status 0$' "$work/replies")" -eq "$2" ] || { printf 'an entry was refused\n' >&2; exit 1; }
        [ -n "$best" ] && [ "$best" -le "$took" ] || best=$took
    done
    printf '%s' "$best"
}

: >"$work/none"
batch import a/ '' >"$work/imports"
batch import a/ "project $main :/a" >"$work/projects"
batch "push $main :/a" '' '' >"$work/pushes"
entries=1 batch "push $main :/a" '' '' >"$work/push"
none=$(taken "$work/none" 0)
imports=$(taken "$work/imports" "$entries")
projects=$(taken "$work/projects" $((2 * entries)))
pushes=$(taken "$work/pushes" "$entries")
push=$(taken "$work/push" 1)
printf '%d commits; loading %d.%03d ms\n' "$commits" $((none / 1000)) $((none % 1000))
printf 'a commit more, by import: %d us\n' $(((imports - none) / entries))
printf 'its projection, which is kept: %d us\n' $(((projects - imports) / entries))
printf 'the first pushed commit, for which the history is projected: %d us\n' $((push - none))
printf 'a pushed commit behind it: %d us\n' $(((pushes - push) / (entries - 1)))

# Git's own commands for a commit upon a part, each a process
git init -q --bare "$work/git" || exit 0
git -C "$work/git" -c core.compression=0 fast-import --quiet <"$work/stream" || exit 0
begun=${EPOCHREALTIME/[.,]/}
for ((i = 0; i < 10; i++)); do
    blob=$(printf '%d' "$i" | git -C "$work/git" hash-object -w --stdin)
    tree=$({ git -C "$work/git" ls-tree $main:a/d3; printf '100644 blob %s\tnew\n' "$blob"; } | sort -u -k4 |
        git -C "$work/git" mktree)
    git -C "$work/git" commit-tree -m c -p $main "$tree" >"$work/out"
done
printf 'git hash-object, mktree, commit-tree: %d us\n' $(((${EPOCHREALTIME/[.,]/} - begun) / 10))
if [ -n "${SUBTREE:-}" ]; then
    git clone -q -b main "$work/git" "$work/clone"
    begun=${EPOCHREALTIME/[.,]/}
    git -C "$work/clone" subtree split -q --rejoin --prefix=a >"$work/out" 2>&1
    printf 'git subtree split --rejoin, the first: %d ms\n' $(((${EPOCHREALTIME/[.,]/} - begun) / 1000))
    printf 'x' >"$work/clone/a/d3/new"
    git -C "$work/clone" add -A && git -C "$work/clone" commit -q -m c
    begun=${EPOCHREALTIME/[.,]/}
    git -C "$work/clone" subtree split -q --rejoin --prefix=a >"$work/out" 2>&1
    printf 'git subtree split --rejoin, after one more commit: %d ms\n' $(((${EPOCHREALTIME/[.,]/} - begun) / 1000))
fi
