#!/usr/bin/env bash
# Compares what each directory of this very repository, and of a made one with merges, is projected to with what Git
# makes of it: by rule 1 with commits that Git's plumbing writes one by one, by rule 2 with `git subtree split`; and
# what `export` writes of it goes through `git fast-import`.
set -u
cd "$(dirname "$0")/.." || exit 1
label=parts
. scripts/lib.sh
needs git mktemp sed cut paste grep mkdir rm
begin
own_settings
has_history || skip 'a whole history'

# The name of the projection of `main` to a directory by rule 1, each of its commits written by Git: with the
# directory's tree, upon the projections of the parents, each once; left out where that would be its only parent's
# tree again.
by_hand() {
    local empty commit parents parent tree one new head
    local -A shown=() trees=()
    empty=$(git hash-object -t tree --stdin </dev/null)
    git rev-list --topo-order --reverse --parents main >"$work/list"
    cut -d ' ' -f 1 "$work/list" | sed "s|\$|:$1|" | git cat-file --batch-check='%(objectname)' |
        sed "s/.* missing\$/$empty/" | paste -d ' ' - "$work/list" >"$work/lines"
    while read -r tree commit parents; do
        new=()
        for parent in $parents; do
            one=${shown[$parent]}
            [ -z "$one" ] || [[ " ${new[*]} " == *" $one "* ]] || new+=("$one")
        done
        if [ "${#new[@]}" -eq 0 ] && [ "$tree" = "$empty" ]; then
            shown[$commit]=
        elif [ "${#new[@]}" -eq 1 ] && [ "$tree" = "${trees[${new[0]}]}" ]; then
            shown[$commit]=${new[0]}
        else
            one=$({
                printf 'tree %s\n' "$tree"
                [ "${#new[@]}" -eq 0 ] || printf 'parent %s\n' "${new[@]}"
                git cat-file commit "$commit" | sed -n '/^author /,$p'
            } | git hash-object -t commit -w --stdin)
            shown[$commit]=$one
            trees[$one]=$tree
        fi
        # The head comes last.
        head=${shown[$commit]}
    done <"$work/lines"
    printf '%s' "$head"
}

# A repository of three directories, whose branches change one or two of them and are merged now and then, also at
# once or into one another; a root of its own joins, and some merges take one side as it is.
made() {
    local i date=1700000000 side
    tick() {
        date=$((date + 60))
        export GIT_AUTHOR_DATE="@$date +0100" GIT_COMMITTER_DATE="@$((date + 7)) -0330"
    }
    git init -q "$work/made" && cd "$work/made" || exit 1
    git config user.name A && git config user.email a@x
    one() {
        tick
        mkdir -p "$1/in"
        printf '%s\n' "$2" >"$1/in/f$2"
        git add -A && git commit -q -m "$1 $2"
    }
    one a 0
    for side in b c left right; do git branch "$side"; done
    for ((i = 1; i < 30; i++)); do
        for side in main b c; do
            git checkout -q "$side" && one "$([ "$side" = main ] && printf a || printf '%s' "$side")" "$i"
        done
        git checkout -q main && tick
        case $((i % 6)) in
        1) git merge -q --no-ff -m "merge $i" b ;;
        3) git merge -q -m "merge $i" b c ;;
        4) git merge -q -s ours --no-ff -m "merge $i" c ;;
        5) git checkout -q b && git merge -q --no-ff -m "merge $i" main && git checkout -q main ;;
        esac
    done
    tick
    git checkout -q --orphan root && git rm -q -r -f . && one a root && git checkout -q main
    git merge -q --allow-unrelated-histories --no-ff -m 'a root joins' root
    git checkout -q left && one a left && git checkout -q right && one b right
    tick && git merge -q --no-ff -m 'left into right' left
    git checkout -q left && tick && git merge -q --no-ff -m 'right into left' 'right^1'
    git checkout -q main && tick && git merge -q --no-ff -m 'both' left
    tick && git merge -q --no-ff -m 'and the other' right
    cd "$OLDPWD" || exit 1
}

# Compares each directory of the repository where it is called.
tried() {
    local rule dir name
    rm -f "$work/store"
    git fast-export refs/heads/main | "$proj" "$work/store" import >/dev/null
    same "an import of $1" "$(git rev-parse main)" "$("$proj" "$work/store" project refs/heads/main :nop)"
    for rule in 1 2; do
        "$proj" "$work/store" rule "$rule" >/dev/null
        for dir in $(git ls-tree -d --name-only main); do
            name=$("$proj" "$work/store" project refs/heads/main ":/$dir")
            if [ "$rule" -eq 1 ]; then
                same "$dir of $1 by plumbing" "$(by_hand "$dir")" "$name"
            elif git subtree 2>&1 | grep -q split; then
                same "$dir of $1 by subtree" "$(git subtree split -q -P "$dir" main 2>/dev/null)" "$name"
            fi
            rm -rf "$work/part"
            git init -q --bare "$work/part"
            "$proj" "$work/store" export refs/heads/main ":/$dir" | git -C "$work/part" fast-import --quiet
            same "the export of $dir of $1" "$(git -C "$work/part" rev-parse main)" "$name"
        done
    done
}

made >/dev/null
git clone -q . "$work/repo" && cd "$work/repo" && git checkout -q -B main || exit 1
tried 'this repository'
cd "$work/made" || exit 1
tried 'a made one'

counted
