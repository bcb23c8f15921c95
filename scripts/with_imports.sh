#!/usr/bin/env bash
# Imports what `git fast-export` writes of this repository, and of a history with merges, renames, modes and links,
# into a store in several runs: the first commits, then the rest upon them, then all branches. Each ref must have
# Git's name; the same streams again append nothing; a ref is moved to a commit of another root only where that is
# forced.
set -u
cd "$(dirname "$0")/.." || exit 1
label=imports
. scripts/lib.sh
needs git mktemp sed sort cmp grep wc mkdir chmod ln rm
begin
own_settings
export GIT_AUTHOR_NAME=A GIT_AUTHOR_EMAIL=a@x GIT_COMMITTER_NAME=B GIT_COMMITTER_EMAIL=b@x

# what it is, and whether it holds
check() {
    if [ "$2" -eq 0 ]; then right; else wrong "not so: $1"; fi
}

# a repository with two branches that are merged now and then, and a third with a root of its own
made() {
    local date=1700000000 i
    tick() {
        date=$((date + 60))
        export GIT_AUTHOR_DATE="$date +0100" GIT_COMMITTER_DATE="$((date + 7)) -0330"
    }
    git init -q -b main "$work/made" && cd "$work/made" || exit 1
    for ((i = 0; i < 40; i++)); do
        tick
        mkdir -p "d$((i % 5))"
        printf 'line %d\n' "$i" >>"d$((i % 5))/f$((i % 7))"
        printf '%d' "$i" >"sp ace $((i % 3))"
        [ $((i % 8)) -ne 3 ] || chmod +x "d$((i % 5))/f$((i % 7))"
        [ $((i % 6)) -ne 5 ] || git mv "d$((i % 5))" "moved$i"
        [ $((i % 9)) -ne 4 ] || ln -sf "target$i" link
        [ $((i % 11)) -ne 7 ] || rm -rf "moved$((i - 2))" "d$(((i + 1) % 5))"
        git add -A && git commit -q --allow-empty -m "commit $i"$'\n\nwith more lines'
        if [ "$i" -eq 9 ]; then git branch side; fi
        if [ $((i % 10)) -eq 9 ] && [ "$i" -gt 9 ]; then
            git checkout -q side
            tick
            printf '%d' "$i" >"only$i" && git add -A && git commit -q -m "side $i"
            git checkout -q main
            tick
            git merge -q --no-ff -m "merge $i" side
        fi
    done
    tick
    git checkout -q --orphan root && git rm -q -r -f . && printf 'r' >r && git add r && git commit -q -m root
    git checkout -q main
    cd "$OLDPWD" || exit 1
}

# what `git fast-export` writes of these revisions of the repository
exported() {
    git -C "$repository" fast-export --reencode=yes --signed-tags=strip --tag-of-filtered-object=drop \
        --reference-excluded-parents "$@"
}

# Imports the branches of the repository in three runs. The first ends so many commits before the main branch's end.
tried() {
    local repository=$1 name=$2 main=$3 back=$4 old size ref stored=0
    old=$(git -C "$repository" rev-list --first-parent -n 1 --skip="$back" "$main") || exit 1
    exported "$old" | sed "s#^\(commit\|reset\) $old\$#\1 $main#" >"$work/first"
    exported "$main" "^$old" >"$work/rest"
    exported --branches >"$work/all"
    "$proj" "$work/$name.store" import <"$work/first" >"$work/out" 2>"$work/err"
    check "$name: the first commits are taken: $(cat "$work/err")" $?
    "$proj" "$work/$name.store" import <"$work/rest" >"$work/out" 2>"$work/err"
    check "$name: the rest is taken: $(cat "$work/err")" $?
    "$proj" "$work/$name.store" import <"$work/all" >"$work/out" 2>"$work/err"
    check "$name: all branches are taken: $(cat "$work/err")" $?
    git -C "$repository" for-each-ref --format='%(refname) %(objectname)' refs/heads | LC_ALL=C sort >"$work/wanted"
    LC_ALL=C sort "$work/out" | cmp -s - "$work/wanted"
    check "$name: each branch has Git's name" $?
    while read -r ref _; do
        [ "$("$proj" "$work/$name.store" export "$ref" :nop | grep -c '^commit ')" -gt 0 ] || stored=1
    done <"$work/wanted"
    check "$name: each branch is there" $stored
    size=$(wc -c <"$work/$name.store")
    for ref in first rest all; do
        [ "$ref" = first ] || "$proj" "$work/$name.store" import <"$work/$ref" >"$work/out" 2>"$work/err"
    done
    [ "$(wc -c <"$work/$name.store")" -eq "$size" ]
    check "$name: the same streams append nothing" $?
    printf 'commit %s\ncommitter A <a@x> 1 +0000\ndata 1\nr\nM 100644 inline r\ndata 1\nr\n' "$main" >"$work/root"
    "$proj" "$work/$name.store" import <"$work/root" >"$work/out" 2>"$work/err"
    [ $? -eq 12 ] && [ ! -s "$work/out" ] && [ "$(wc -c <"$work/$name.store")" -eq "$size" ]
    check "$name: another root is refused" $?
    "$proj" "$work/$name.store" import --force <"$work/root" >"$work/out" 2>"$work/err"
    check "$name: another root is taken where it is forced" $?
}

made
tried "$work/made" made refs/heads/main 25
if has_history; then
    git clone -q --bare . "$work/here.git" 2>/dev/null &&
        branch=$(git -C "$work/here.git" symbolic-ref HEAD) &&
        git -C "$work/here.git" rev-parse -q --verify "$branch~30" >"$work/out" &&
        tried "$work/here.git" here "$branch" 30
fi
counted
