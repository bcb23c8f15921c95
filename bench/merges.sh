#!/usr/bin/env bash
# Times pushes with merges on a journal, beside loading it, projecting its branches and pushes in line, and beside Git's
# work of the same kind: commits of 3 changes over 1,000 files of some 700 bytes, of which half lie below `a`. A branch
# `side` leaves `main` 100 commits before its end, and each of its commits adds a file below `a`. Its words are the
# number of commits of `main` (5700), how many commits `side` has and are pushed (1000), and how many more commits a
# third branch has, which begins anew (0). Each call is on a copy of one store. With `ROUNDS=3` all is done three times.
set -u
cd "$(dirname "$0")/.." || exit 1
label=merges
. scripts/lib.sh
needs git mktemp awk cp sed head seq wc
begin
own_settings
commits=${1:-5700}
many=${2:-1000}
apart=${3:-0}
main=refs/heads/main
side=refs/heads/side
export GIT_AUTHOR_NAME=A GIT_AUTHOR_EMAIL=a@x GIT_COMMITTER_NAME=A GIT_COMMITTER_EMAIL=a@x

# So many commits on a ref, with marks from a number on.
history() {
    awk -v ref="$1" -v first="$2" -v last="$(($2 + $3 - 1))" 'BEGIN {
        for (i = first; i <= last; i++) {
            printf "commit %s\nmark :%d\ncommitter A <a@x> %d +0000\ndata 7\nchange\n", ref, i, 1700000000 + i
            if (i > first) printf "from :%d\n", i - 1
            for (j = 0; j < 3; j++) {
                k = (i * 7 + j * 101) % 1000
                text = ""
                for (n = 1; n <= 8; n++) {
                    text = text "line " n " of " i " " j
                    text = text ", which is changed, and has a few words more than its number\n"
                }
                top = k % 2 ? "a/" : "b/"
                printf "M 100644 inline %sd%d/f%d\ndata %d\n%s\n", top, int(k / 20), k, length(text), text
            }
        }
    }'
}

# Commits that add a file each: the ref, what the first stands upon, the directory, and on standard input for each of
# them a name that it merges, or an empty line.
adding() {
    awk -v ref="$1" -v from="$2" -v dir="$3" '{
        printf "commit %s\ncommitter A <a@x> %d +0000\ndata 4\nadd\n", ref, 1800000000 + NR
        if (NR == 1) printf "from %s\n", from
        if ($0 != "") printf "merge %s\n", $0
        printf "M 100644 inline %snew/f%d\ndata %d\n%d\n", dir, NR, length(NR "") + 1, NR
    }'
}

# what it is, and words whose processor time is taken
timed() {
    local what=$1 TIMEFORMAT='%U %S'
    shift
    { time "$@" >"$work/out" 2>"$work/err" || printf 'refused: %s\n' "$what" >&2; } 2>"$work/time"
    printf '%-44s %7.2f s of the processor\n' "$what" "$(awk '{ print $1 + $2 }' "$work/time")"
}

ours() {
    cp "$work/store" "$work/copy"
    "$proj" "$work/copy" "$@"
}

# a call, but for what the copy of the store takes
timed_here() {
    cp "$work/store" "$work/copy"
    local what=$1
    shift
    timed "$what" "$proj" "$work/copy" "$@"
}

merged_by_git() {
    local name
    while read -r name; do
        git -C "$work/clone" merge -q --no-ff --no-edit "$name" || return
    done <"$work/names"
}

history $main 1 "$commits" >"$work/stream"
history refs/heads/apart $((commits + 1)) "$apart" >>"$work/stream"
"$proj" "$work/store" import <"$work/stream" >"$work/out" || exit 1
# The last 100 commits of `main` stand beside `side`.
history $main 1 $((commits - 100)) >"$work/stream"
fork=$("$proj" "$work/before" import <"$work/stream" | sed -n "s|^$main ||p")
rm "$work/before"
seq "$many" | sed 's/.*//' | adding $side "$fork" a/ | "$proj" "$work/store" import >"$work/out" || exit 1
git init -q --bare -b main "$work/part"
ours export $main :/a | git -C "$work/part" fast-import --quiet
ours export $side :/a | git -C "$work/part" fast-import --quiet
git -C "$work/part" rev-list --reverse --first-parent -n "$many" $side >"$work/names"
head=$(git -C "$work/part" rev-parse $main)
[ "$(ours project $main :/a)" = "$head" ] || exit 1
seq "$many" | sed 's/.*//' | adding $main "$head" '' >"$work/plain"
adding $main "$head" '' <"$work/names" >"$work/merges"
printf '\n' | adding $main "$head" '' >"$work/plain.one"
head -n 1 "$work/names" | adding $main "$head" '' >"$work/merges.one"
git -C "$work/part" format-patch -q --stdout "$(git -C "$work/part" merge-base $main $side)..$side" >"$work/patches"
printf '%d commits of main, %d of side, %d apart; a journal of %d MB\n' "$commits" "$many" "$apart" \
    $(($(wc -c <"$work/store") / 1000000))
for ((round = 0; round < ${ROUNDS:-1}; round++)); do
    timed_here 'loading alone (a rule that is set already)' rule 1
    timed_here 'project of main' project $main :/a
    timed_here 'project of side' project $side :/a
    [ "$apart" = 0 ] || timed_here 'project of apart' project refs/heads/apart :/a
    for kind in .one ''; do
        timed_here "push, in line${kind:+, one commit}" push $main :/a <"$work/plain$kind"
        timed_here "push --merges, in line${kind:+, one commit}" push --merges $main :/a <"$work/plain$kind"
        timed_here "push --merges, of merges${kind:+, one commit}" push --merges $main :/a <"$work/merges$kind"
    done
    rm -rf "$work/clone"
    git clone -q -b main "$work/part" "$work/clone"
    timed 'git am of the patches' git -C "$work/clone" am -q "$work/patches"
    git -C "$work/clone" reset -q --hard "$head"
    timed 'git merge of each commit of side' merged_by_git
    git -C "$work/clone" reset -q --hard "$head"
    timed 'git fast-import of the merges' git -C "$work/clone" fast-import --quiet --force <"$work/merges"
done
