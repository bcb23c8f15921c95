#!/usr/bin/env bash
# Times what `proj_read` writes of a journal, and clones and fetches by contrib/git-remote-proj, beside Git's of the same
# part: `git fast-export -- a`, which keeps the paths, and `git fast-import`. The history is commits of 3 changes over
# 1,000 files of some 700 bytes, of which half lie below `a`. Its words are the number of commits (5700), or a file with
# a stream of `refs/heads/main` in its place; how often each is done (3); and the directory (a). The runs of what is
# compared take turns. `PROJ_READ` names the program, as `PROJ` does `proj`.
set -u
cd "$(dirname "$0")/.." || exit 1
label='read'
. scripts/lib.sh
needs git mktemp awk sort paste wc cat cp ln realpath
begin_reading
own_settings
given=${1:-5700}
runs=${2:-3}
part=${3:-a}
main=refs/heads/main

# The stream of so many commits.
history() {
    awk -v last="$1" 'BEGIN {
        for (i = 1; i <= last; i++) {
            printf "commit refs/heads/main\nmark :%d\ncommitter A <a@x> %d +0000\ndata 7\nchange\n", i, 1700000000 + i
            if (i > 1) printf "from :%d\n", i - 1
            for (j = 0; j < 3; j++) {
                k = (i * 7 + j * 101) % 1000
                text = ""
                for (n = 1; n <= 8; n++) {
                    text = text "line " n " of " i " " j
                    text = text ", which is changed, and has a few words more than its number\n"
                }
                top = k % 2 ? "a/" : "b/"
                printf "M 100644 inline %sd%d/f%d\ndata %d\n%s\n", top, int(k / 20), k, length(text), text
            }
        }
    }'
}

# what it is, and words whose processor time is taken
timed() {
    local what=$1 TIMEFORMAT='%U %S'
    shift
    { time "$@" >"$work/out" 2>"$work/err" || : >"$work/refused"; } 2>"$work/time"
    [ ! -e "$work/refused" ] || fail "refused: $what: $(cat "$work/err")"
    awk '{ printf "%.3f\n", $1 + $2 }' "$work/time" >>"$work/times.${what//[^a-z]/_}"
}

# The times of this, all of them and the least.
told() {
    sort -n "$work/times.${1//[^a-z]/_}" | awk -v what="$1" '{ all = all " " $1 } NR == 1 { least = $1 }
        END { printf "%-46s least %7.3f s, all%s\n", what, least, all }'
}

# What a quotient is of, of each run: the columns are the times of these.
ratio() {
    local what=$1 formula=$2 it files=()
    shift 2
    for it in "$@"; do files+=("$work/times.${it//[^a-z]/_}"); done
    printf '%s:' "$what"
    paste "${files[@]}" | awk "{ printf \" %.3f\", $formula } END { print \"\" }"
}

part_by_git() {
    rm -rf "$work/part"
    git init -q --bare "$work/part" &&
        git -C "$work/git" fast-export -- $main -- "$part" | git -C "$work/part" fast-import --quiet
}

clone() {
    rm -rf "$work/clone"
    git clone -q --bare "proj::$work/store#$main#:/$part" "$work/clone"
}

fetch() {
    git -C "$work/clone" fetch -q "proj::$work/store#$main#:/$part" "$main:$main"
}

mkdir "$work/bin"
ln -s "$(realpath "$proj")" "$work/bin/proj"
ln -s "$(realpath "$proj_read")" "$work/bin/proj_read"
ln -s "$PWD/contrib/git-remote-proj" "$work/bin/git-remote-proj"
export PATH=$work/bin:$PATH
if [ -f "$given" ]; then cp "$given" "$work/stream"; else history "$given" >"$work/stream"; fi
git init -q --bare "$work/git"
git -C "$work/git" -c core.compression=0 -c pack.compression=0 fast-import --quiet --depth=0 <"$work/stream" || exit 1
"$proj" "$work/store" import <"$work/stream" >"$work/out" || exit 1
"$proj" "$work/store" project $main ":/$part" >"$work/out"
old=$(cat "$work/out")
clone || exit 1
cp -r "$work/clone" "$work/before"
printf 'commit %s\ncommitter A <a@x> 1900000000 +0000\ndata 4\none\nfrom %s\nM 100644 inline %s/one\ndata 4\none\n\n' \
    $main "$(git -C "$work/git" rev-parse $main)" "$part" >"$work/one"
git -C "$work/git" fast-import --quiet <"$work/one" || exit 1
git -C "$work/git" fast-export -- $main -- "$part" >"$work/by_git"
"$proj" "$work/store" import <"$work/one" >"$work/out" || exit 1
cp "$work/store" "$work/one_more"
"$proj_read" "$work/store" new $main ":/$part" >"$work/here" || exit 1
printf '%d commits, a journal of %d MB\n' "$(git -C "$work/git" rev-list --count $main)" \
    $(($(wc -c <"$work/store") / 1000000))
awk -v here="$(wc -c <"$work/here")" -v git="$(wc -c <"$work/by_git")" \
    'BEGIN { printf "the text: %d bytes, by Git %d: %.3f of it\n", here, git, here / git }'
for ((run = 0; run < runs; run++)); do
    timed 'git fast-export' git -C "$work/git" fast-export -- $main -- "$part"
    timed 'loading' "$proj_read" "$work/store" refs
    timed 'log' "$proj_read" "$work/store" log $main ":/$part"
    timed 'new' "$proj_read" "$work/store" new $main ":/$part"
    timed 'new, of one commit' "$proj_read" "$work/store" new $main ":/$part" "$old"
    timed 'git fast-export into git fast-import' part_by_git
    timed 'a clone' clone
    rm -rf "$work/clone"
    cp -r "$work/before" "$work/clone"
    cp "$work/one_more" "$work/store"
    timed 'a fetch of one commit' fetch
done
for what in 'git fast-export' 'loading' 'log' 'new' 'new, of one commit' 'git fast-export into git fast-import' \
    'a clone' 'a fetch of one commit'; do
    told "$what"
done
ratio 'new beside loading and projecting, of git fast-export' '($1 - $2) / $3' new log 'git fast-export'
ratio 'all of new, of git fast-export' '$1 / $2' new 'git fast-export'
ratio 'a clone, of git fast-export into git fast-import' '$1 / $2' 'a clone' 'git fast-export into git fast-import'
ratio 'new of one commit beside loading, in seconds' '$1 - $2' 'new, of one commit' loading
ratio 'new of one commit, of loading' '$1 / $2' 'new, of one commit' loading
ratio 'a fetch of one commit, of loading' '$1 / $2' 'a fetch of one commit' loading
