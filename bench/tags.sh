#!/usr/bin/env bash
# Times annotated tags on a journal, beside the same history without them and beside `git fast-import`: commits of 3
# changes over 1,000 files of some 700 bytes, of which half lie below `a`, and tags spread over them. Its words are the
# number of commits (5700) and of tags (1000), how often each is done (3), and the order of the tags in the stream:
# `falling` by their names, as `git fast-export` writes them, or `rising`. The runs of what is compared take turns.
set -u
cd "$(dirname "$0")/.." || exit 1
label=tags
. scripts/lib.sh
needs git mktemp awk sort paste wc cp
begin
own_settings
commits=${1:-5700}
tags=${2:-1000}
runs=${3:-3}
order=${4:-falling}
main=refs/heads/main

# The stream, with so many tags.
history() {
    awk -v last="$commits" -v tags="$1" -v order="$order" 'BEGIN {
        for (i = 1; i <= last; i++) {
            printf "commit refs/heads/main\nmark :%d\ncommitter A <a@x> %d +0000\ndata 7\nchange\n", i, 1700000000 + i
            if (i > 1) printf "from :%d\n", i - 1
            for (j = 0; j < 3; j++) {
                k = (i * 7 + j * 101) % 1000
                text = ""
                for (n = 1; n <= 8; n++) {
                    text = text "line " n " of " i " " j
                    text = text ", which is changed, and has a few words more than its number\n"
                }
                printf "M 100644 inline %sd%d/f%d\ndata %d\n%s\n", k % 2 ? "a/" : "b/", int(k / 20), k, length(text), text
            }
        }
        for (t = 1; t <= tags; t++) {
            n = order == "rising" ? t : tags + 1 - t
            text = "Version 1." n "\n\nwhich has a few words more than its number\n"
            printf "tag v1.%06d\nfrom :%d\ntagger A <a@x> %d +0000\n", n, 1 + int((n - 1) * last / tags), 1700000000 + n
            printf "data %d\n%s\n", length(text), text
        }
    }'
}

# what it is, and words whose processor time is taken
timed() {
    local what=$1 TIMEFORMAT='%U %S'
    shift
    { time "$@" >"$work/out" 2>"$work/err" || printf 'refused: %s\n' "$what" >&2; } 2>"$work/time"
    awk '{ printf "%.2f\n", $1 + $2 }' "$work/time" >>"$work/${what//[^a-z]/_}"
}

# The times of these, all of them and the least.
told() {
    local what
    for what in "$@"; do
        sort -n "$work/${what//[^a-z]/_}" | awk -v what="$what" '{ all = all " " $1 } NR == 1 { least = $1 }
            END { printf "%-34s least %7.2f s, all%s\n", what, least, all }'
    done
}

by_git() {
    rm -rf "$work/git"
    git init -q --bare "$work/git" &&
        git -C "$work/git" -c core.compression=0 -c pack.compression=0 fast-import --quiet --depth=0 <"$1"
}

here() {
    rm -f "$work/store"
    "$proj" "$work/store" import <"$1"
}

# a call on a copy of a store
on_copy() {
    local store=$1
    shift
    cp "$store" "$work/copy"
    timed "${what:?}" "$proj" "$work/copy" "$@"
}

history "$tags" >"$work/tagged"
history 0 >"$work/plain"
here "$work/plain" >"$work/out" || exit 1
mv "$work/store" "$work/plain_store"
here "$work/tagged" >"$work/out" || exit 1
mv "$work/store" "$work/tagged_store"
printf '%d commits, %d tags, %s; streams of %d and %d bytes, journals of %d and %d\n' "$commits" "$tags" "$order" \
    "$(wc -c <"$work/plain")" "$(wc -c <"$work/tagged")" "$(wc -c <"$work/plain_store")" "$(wc -c <"$work/tagged_store")"
for ((run = 0; run < runs; run++)); do
    timed 'git fast-import' by_git "$work/tagged"
    timed 'import' here "$work/tagged"
    timed 'import without tags' here "$work/plain"
    what='loading' on_copy "$work/tagged_store" rule 1
    what='loading without tags' on_copy "$work/plain_store" rule 1
    what='the same import again' on_copy "$work/tagged_store" import <"$work/tagged"
    what='project :/a, first' on_copy "$work/tagged_store" project $main :/a
    what='tags :/a' on_copy "$work/tagged_store" tags $main :/a
    what='export :/a' on_copy "$work/tagged_store" export $main :/a
    what='export --tags :/a' on_copy "$work/tagged_store" export --tags $main :/a
done
told 'git fast-import' 'import' 'import without tags' 'loading' 'loading without tags' 'the same import again' \
    'project :/a, first' 'tags :/a' 'export :/a' 'export --tags :/a'
paste "$work/git_fast_import" "$work/import" | awk '{ printf "import, of the time of git fast-import: %.2f\n", $2 / $1 }'
