#!/usr/bin/env bash
# Times whole calls of `proj` on a journal, beside Git's of the same kind: commits of 3 changes over 1,000 files of
# some 700 bytes, of which half lie below `a`; about ten objects and 2 KB of stream a commit. Its word is the number
# of commits (5700).
set -u
cd "$(dirname "$0")/.." || exit 1
label=commands
. scripts/lib.sh
needs git mktemp awk
begin
own_settings
commits=${1:-5700}
main=refs/heads/main

# The commits with these numbers, upon the one before the first.
history() {
    awk -v first="$1" -v last="$2" -v from="$3" -v dir="$4" 'BEGIN {
        for (i = first; i <= last; i++) {
            printf "commit refs/heads/main\nmark :%d\ncommitter A <a@x> %d +0000\ndata 7\nchange\n", i, 1700000000 + i
            if (i > first) printf "from :%d\n", i - 1
            else if (from != "") printf "from %s\n", from
            else if (dir == "") {
                text = ""
                for (j = 0; j < 10; j++) text = text "x" j " = :/" (j % 2 ? "a" : "b") "/d" 5 * j "\n"
                printf "M 100644 inline ws/workspace.josh\ndata %d\n%s\n", length(text), text
            }
            for (j = 0; j < 3; j++) {
                k = (i * 7 + j * 101) % 1000
                text = ""
                for (n = 1; n <= 8; n++) {
                    text = text "line " n " of " i " " j
                    text = text ", which is changed, and has a few words more than its number\n"
                }
                top = dir != "" ? dir : k % 2 ? "a/" : "b/"
                printf "M 100644 inline %sd%d/f%d\ndata %d\n%s\n", top, int(k / 20), k, length(text), text
            }
        }
    }'
}

# what it is, and words whose time is taken: of the processor, and of the clock
timed() {
    local what=$1 TIMEFORMAT='%U %S %R'
    shift
    { time "$@" >"$work/out" 2>"$work/err"; } 2>"$work/time"
    printf '%-44s %6.2f s of the processor, %6.2f s\n' "$what" \
        "$(awk '{ print $1 + $2 }' "$work/time")" "$(awk '{ print $3 }' "$work/time")"
}

git_import() {
    rm -rf "${work:?}/$1"
    git init -q --bare "$work/$1" &&
        git -C "$work/$1" -c core.compression=0 -c pack.compression=0 fast-import --quiet --depth=0
}

ours() {
    "$proj" "$work/store" "$@"
}

part_by_git() {
    git -C "$work/git" fast-export -- $main -- a | git_import part
}

trees_by_git() {
    git -C "$work/git" fast-export --full-tree -- $main -- a | git_import part
}

# It changes the repository that it works on.
part_by_filter_repo() {
    git clone -q --bare "$work/git" "$work/filtered" &&
        git -C "$work/filtered" filter-repo --force --subdirectory-filter a
}

export_by_git() {
    ours export $main :/a | git_import part
}

history 1 "$commits" '' '' >"$work/stream"
printf '%d commits, a stream of %d MB\n' "$commits" $(($(wc -c <"$work/stream") / 1000000))
timed 'git fast-import' git_import git <"$work/stream"
timed 'import' ours import <"$work/stream"
printf 'a journal of %d MB\n' $(($(wc -c <"$work/store") / 1000000))
timed 'the same import again' ours import <"$work/stream"
timed 'loading alone (a rule that is set already)' ours rule 1
timed 'git hash-object of the journal' git hash-object --stdin <"$work/store"
if [ -x /usr/bin/time ]; then
    most=$(/usr/bin/time -f %M "$proj" "$work/store" rule 1 2>&1 >"$work/out")
    printf 'the most memory that loading holds: %d MB\n' $((most * 1024 / 1000000))
fi
timed 'project :/a, first' ours project $main :/a
timed 'project :/a again' ours project $main :/a
timed 'project :[x=:/a,y=:/b], first' ours project $main ':[x=:/a,y=:/b]'
timed 'project :workspace=ws of ten directories, first' ours project $main :workspace=ws
timed 'export :/a' ours export $main :/a
timed 'export :/a into git fast-import' export_by_git
timed 'git fast-export -- a into git fast-import' part_by_git
timed 'git fast-export --full-tree into git fast-import' trees_by_git
if command -v git-filter-repo >/dev/null; then
    timed 'git filter-repo --subdirectory-filter a' part_by_filter_repo
    [ "$(git -C "$work/filtered" rev-parse $main)" = "$(ours project $main :/a)" ] ||
        printf 'its head has another name\n'
fi
history 1 1 "$(ours project $main :/a)" d0/ >"$work/pushed"
timed 'push of one commit through :/a' ours push $main :/a <"$work/pushed"
history 1 1000 "$(ours project $main :/a)" d1/ >"$work/pushed"
timed 'push of 1,000 commits through :/a' ours push $main :/a <"$work/pushed"
timed 'git fast-import of these' git_import pushed < <(history 1 1000 '' d1/)
{ export_by_git && git clone -q -b main "$work/part" "$work/applied"; } 2>"$work/err"
head=$(git -C "$work/part" rev-parse $main)
history 1 1000 "$head" d1/ | git -C "$work/part" fast-import --quiet
git -C "$work/part" format-patch -q --stdout "$head..$main" >"$work/patches"
timed 'git am of their patches' git -C "$work/applied" -c user.name=A -c user.email=a@x am -q "$work/patches"
