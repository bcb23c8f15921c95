#!/usr/bin/env bash
# Annotated tags of a real Git: `import` takes those that `git fast-export` writes, `tags` names Git's own objects, and
# Git makes the objects that `tags` names of what `export --tags` writes. And what is answered where a tag is moved,
# signed, of another tag, of no commit, or without a tagger.
set -u
cd "$(dirname "$0")/.." || exit 1
label=tags
. scripts/lib.sh
needs git mktemp awk sort sed grep tail cut cat cmp wc tr
begin
own_settings
export LC_ALL=C GIT_AUTHOR_NAME=A GIT_AUTHOR_EMAIL=a@x GIT_AUTHOR_DATE='@1700000000 +0000'
export GIT_COMMITTER_NAME=A GIT_COMMITTER_EMAIL=a@x GIT_COMMITTER_DATE='@1700000000 +0000'
main=refs/heads/main
store=$work/store
repository=$work/repository

# ---- a history with tags

# A commit of a stream: its ref, its mark, lines that name parents or nothing, a path and a text that is written there.
commit() {
    printf 'commit refs/heads/%s\nmark :%d\ncommitter A <a@x> %d +0000\n' "$1" "$2" $((1700000000 + $2))
    printf 'data 2\nm\n%s' "$3"
    printf 'M 100644 inline %s\ndata %d\n%s\n\n' "$4" ${#5} "$5"
}

git init -q --bare "$repository" || exit 1
{
    commit main 1 '' a/f one
    commit main 2 '' b/g two
    commit main 3 '' a/f three
    commit side 4 $'from :2\n' c/h four
    commit side 5 '' a/d/i five
    commit main 6 $'from :3\nmerge :5\n' ws/workspace.josh $'inner = :/a\nbeside = :/b\n'
    commit main 7 '' b/g seven
    commit other 8 $'from :2\n' b/k eight
    commit gone 9 $'from :7\n' a/j nine
    commit gone 10 '' a/j ten
} | git -C "$repository" fast-import --quiet --export-marks="$work/marks" || exit 1

# the commit with this mark
at() {
    sed -n "s/^:$1 //p" "$work/marks"
}

# what is compared, the lines that Git says, those that are said here
alike() {
    if [ "$(sort <<<"$2")" = "$(sort <<<"$3")" ]; then right; else
        wrong "$1: $(diff <(sort <<<"$2") <(sort <<<"$3") | head -n 3)"
    fi
}

# An annotated tag of a commit with this message, just as it is.
tag() {
    printf '%s' "$3" >"$work/message"
    git -C "$repository" tag -a -f --cleanup=verbatim -F "$work/message" "$1" "$2" >/dev/null ||
        wrong "git makes no tag $1"
}

# Makes a tag's object and prints its name: of which object, of what kind, the tag, the tagger's line or nothing, the
# message.
object() {
    printf 'object %s\ntype %s\ntag %s\n%s\n%s' "$1" "$2" "$3" "$4" "$5" |
        git -C "$repository" hash-object --literally -t tag -w --stdin
}

tag v1 "$(at 1)" $'the first\n'
tag v1.0 "$(at 1)" $'the same commit\n'
tag v1-rc "$(at 1)" $'a name between the two\n'
tag V1 "$(at 1)" $'another case\n'
tag rel/1.0 "$(at 3)" $'slashes\n'
tag rel/a/b "$(at 7)" $'more of them\n'
tag $'caf\xc3\xa9' "$(at 2)" $'no ASCII: caf\xc3\xa9\n'
tag $'\xff' "$(at 2)" $'no UTF-8: \xff\n'
tag 'a"b' "$(at 3)" $'a quote\n'
tag no-line-end "$(at 3)" 'no line end'
tag empty "$(at 3)" ''
tag line-ends "$(at 3)" $'\n\n\n'
tag stream "$(at 4)" $'# data\ndata 3\nfrom :1\n\ntag v1\n'
tag long "$(at 6)" "$(awk 'BEGIN { for (i = 0; i < 20000; i++) print "line " i }')"
tag side "$(at 5)" $'of the other parent\n'
tag other "$(at 8)" $'beside the branch\n'
tag gone "$(at 10)" $'no branch has its commit\n'
tag gone-before "$(at 9)" $'nor this one\n'
GIT_COMMITTER_DATE='@0 -1200' tag first-second "$(at 2)" $'1970\n'
GIT_COMMITTER_DATE='@1112911993 +0545' tag zone "$(at 2)" $'a zone of Nepal\n'
GIT_COMMITTER_DATE='@99999999999 -0001' tag late "$(at 2)" $'far ahead\n'
GIT_COMMITTER_NAME=$'\xc3\x84 \xff.x' GIT_COMMITTER_EMAIL='' tag no-email "$(at 2)" $'an odd tagger\n'
elsewhere=$(object "$(at 7)" commit refs/other/x $'tagger A <a@x> 5 +0000\n' 'elsewhere')
git -C "$repository" update-ref refs/other/x "$elsewhere"
git -C "$repository" tag light "$(at 3)"
git -C "$repository" tag V "$(at 1)"
git -C "$repository" update-ref -d refs/heads/gone

exported() {
    git -C "$repository" fast-export --use-done-feature --signed-tags=strip "${@:---all}" 2>"$work/err"
}

# the answer of a call: what it prints on both outputs, and its status
said() {
    "$proj" "$@" 2>&1
    printf 'status %d' "$?"
}

exported >"$work/stream"
"$proj" "$store" import <"$work/stream" >"$work/refs" || fail 'import refuses what git fast-export wrote'

# The annotated tags of a repository: object and name, in the order of their names.
annotated() {
    git -C "$1" for-each-ref --format='%(objecttype) %(objectname) %(refname)' |
        sed -n 's|^tag \([0-9a-f]*\) \(refs/tags/\)\{0,1\}\(.*\)|\1 \3|p' | sort -k 2
}

# Beside the branches and the light tags these are refs: `git fast-export` says of a commit that has tags that it is on
# the first of them, where no branch is at it.
alike 'the refs' "$(
    git -C "$repository" for-each-ref --format='%(refname) %(objectname)' refs/heads
    for name in V light; do printf 'refs/tags/%s %s\n' $name "$(git -C "$repository" rev-parse $name)"; done
    while read -r name number; do printf 'refs/tags/%s %s\n' "$name" "$(at "$number")"; done <<<$'a"b 3\ncaf\xc3\xa9 2
gone 10\ngone-before 9\nlong 6\nstream 4'
)" "$(cat "$work/refs")"
cp "$store" "$work/before"
"$proj" "$store" import <"$work/stream" >"$work/out" || wrong 'the same import again is refused'
if cmp -s "$store" "$work/before"; then right; else wrong 'the same import again appends something'; fi

# ---- what `tags` prints, by Git

# A copy of the store, in which each commit has a ref of its own, tells projections of all of them.
cp "$store" "$work/each"
for n in 1 2 3 4 5 6 7 8 9 10; do printf 'reset refs/each/%d\nfrom %s\n' $n "$(at $n)"; done |
    "$proj" "$work/each" import >"$work/out" || fail 'import refuses commits that are there'

# The tags of a ref through a filter: for each of Git's that is of a commit of the ref's history, Git's name for the
# same object of the projected commit.
expected() {
    local object name commit number projected
    annotated "$repository" | while read -r object name; do
        commit=$(git -C "$repository" rev-parse "$object^{commit}")
        git -C "$repository" merge-base --is-ancestor "$commit" "$1" || continue
        number=$(sed -n "s/^:\([0-9]*\) $commit$/\1/p" "$work/marks")
        projected=$("$proj" "$work/each" project "refs/each/$number" "$2")
        [ "$projected" != none ] || continue
        printf '%s %s\n' "$name" "$(
            { printf 'object %s\n' "$projected"; git -C "$repository" cat-file tag "$object" | tail -n +2; } |
                git hash-object --literally -t tag --stdin
        )"
    done
}

# The tags of a repository as `tags` prints them.
tags_in() {
    annotated "$1" | sed 's/^\([0-9a-f]*\) \(.*\)/\2 \1/'
}

# The ref's tags through the filter are as Git has them; Git makes these objects of what `export --tags` writes; and so
# does an empty store.
agrees() {
    local ref=$1 filter=$2 lines
    lines=$("$proj" "$store" tags "$ref" "$filter") || wrong "tags $ref $filter"
    alike "tags $ref $filter" "$(expected "$ref" "$filter")" "$lines"
    "$proj" "$store" export --tags "$ref" "$filter" >"$work/text" || wrong "export --tags $ref $filter"
    rm -rf "$work/again" "$work/anew"
    git init -q --bare "$work/again"
    git -C "$work/again" fast-import --quiet <"$work/text" || wrong "git refuses export --tags $ref $filter"
    alike "export --tags $ref $filter, by Git" "$(tags_in "$work/again")" "$lines"
    "$proj" "$work/anew" import <"$work/text" >"$work/out" || wrong "import refuses export --tags $ref $filter"
    [ ! -s "$work/text" ] ||
        alike "export --tags $ref $filter, imported" "$lines" "$("$proj" "$work/anew" tags "$ref" :nop)"
    "$proj" "$store" export "$ref" "$filter" >"$work/plain"
    if cmp -s -n "$(wc -c <"$work/plain")" "$work/plain" "$work/text"; then right; else
        wrong "export --tags $ref $filter doesn't begin with export"
    fi
}

same 'tags of everything' "$(tags_in "$repository" | grep -v -e '^gone' -e '^other ')" \
    "$("$proj" "$store" tags $main :nop)"
for filter in :nop :/a :/b :/c ::a/ ::b/g :prefix=x ':exclude[::a/]' ':[x=:/a,y=:/b]' :workspace=ws :/a/d :/none; do
    agrees $main "$filter"
done
for ref in refs/heads/side refs/heads/other refs/tags/light refs/tags/gone; do
    agrees $ref :nop
    agrees $ref :/a
done
cp "$store" "$work/by_rule_2"
cp "$store" "$work/by_rule_1"
"$proj" "$store" rule 2 >"$work/out"
"$proj" "$work/each" rule 2 >"$work/out"
agrees $main :/a
agrees $main :/c
mv "$work/by_rule_1" "$store"
"$proj" "$work/each" rule 1 >"$work/out"

# tags of commits that aren't shown
for name in other gone gone-before; do
    if "$proj" "$store" tags $main :nop | grep -q "^$name "; then wrong "tags of main has $name"; else right; fi
done
if "$proj" "$store" tags $main :/c | grep -q '^v1 '; then wrong 'tags :/c has a tag of none'; else right; fi

# ---- tags that are moved, and tags that go

# What is answered to the import of all of the repository, which leaves the store.
refused() {
    exported >"$work/stream"
    cp "$store" "$work/before"
    same "$1" "$2" "$(said "$store" import <"$work/stream")"
    if cmp -s "$store" "$work/before"; then right; else wrong "$1 changes the store"; fi
}

tag v1.0 "$(at 1)" $'another message\n'
refused 'another message' $'tag exists: v1.0\nstatus 29'
GIT_COMMITTER_NAME=B tag empty "$(at 3)" ''
refused 'of two the first in byte order' $'tag exists: empty\nstatus 29'
"$proj" "$store" import --force <"$work/stream" >"$work/out" || wrong 'import --force refuses tags that are moved'
agrees $main :nop
agrees $main :/a
tag rel/1.0 "$(at 7)" $'slashes\n'
refused 'another commit' $'tag exists: rel/1.0\nstatus 29'
"$proj" "$store" import --force <"$work/stream" >"$work/out" || wrong 'import --force refuses a tag of another commit'
agrees $main :nop
# a moved tag whose old commit was said to be on it
tag gone "$(at 9)" $'no branch has its commit\n'
refused 'a tag that goes back' "not forward: refs/tags/gone $(at 10) $(at 9)
status 12"
git -C "$repository" tag -d v1 >"$work/out"
exported | "$proj" "$store" import --force >"$work/out"
same 'a tag that is gone' "v1 $(object "$(at 1)" commit v1 $'tagger A <a@x> 1700000000 +0000\n' $'the first\n')" \
    "$("$proj" "$store" tags $main :nop | grep '^v1 ')"
# an annotated tag in the place of a light one, and the other way
tag light "$(at 3)" $'no longer light\n'
git -C "$repository" update-ref refs/tags/side "$(at 5)"
exported | "$proj" "$store" import >"$work/out" || wrong 'a light tag that gets a message is refused'
same 'a light tag that gets a message' "light $(git -C "$repository" rev-parse light)" \
    "$("$proj" "$store" tags $main :nop | grep '^light ')"
same 'a tag that becomes light' "$(at 5)" "$("$proj" "$store" project refs/tags/side :nop)"

# ---- a part of the history

commit main 11 "from $(at 7)"$'\n' a/f eleven | git -C "$repository" fast-import --quiet
tip=$(git -C "$repository" rev-parse main)
tag tip "$tip" $'of a new commit\n'
tag late-comer "$(at 2)" $'of an old one\n'
exported --reference-excluded-parents --tag-of-filtered-object=rewrite $main late-comer tip "^$(at 7)" |
    "$proj" "$store" import >"$work/out" || wrong 'import refuses new tags of new and of old commits'
for name in tip late-comer; do
    same "the tag $name" "$name $(git -C "$repository" rev-parse $name)" \
        "$("$proj" "$store" tags $main :nop | grep "^$name ")"
done

# ---- tags that Git doesn't write, or writes so that they are refused

# A repository with one commit and one tag: of this object of that kind, with this tagger's line and this message.
odd() {
    rm -rf "$work/odd" "$work/fresh"
    git init -q --bare "$work/odd"
    commit main 1 '' a/f one | git -C "$work/odd" fast-import --quiet
    git -C "$work/odd" update-ref refs/tags/odd "$(
        repository=$work/odd
        object "$(git -C "$work/odd" rev-parse "$1")" "$2" odd "$3" "$4"
    )"
}
# what Git writes of it, with these options
written() {
    git -C "$work/odd" fast-export --use-done-feature "$@" --all >"$work/stream" 2>"$work/err"
}
# the place of the first line that is this one
place() {
    grep -a -b -m 1 -x -e "$1" "$work/stream" | cut -d : -f 1
}
# What an empty store answers to it, and then `tags`.
taken() {
    "$proj" "$work/fresh" import <"$work/stream" 2>&1 >"$work/out"
    printf 'status %d' "$?"
}
named() {
    same "$1" "odd $2" "$("$proj" "$work/fresh" tags $main :nop)"
}

tagger=$'tagger A <a@x> 1700000000 +0000\n'
signed=$'signed\n-----BEGIN PGP SIGNATURE-----\n\nabc\n-----END PGP SIGNATURE-----\n'
odd main commit "$tagger" "$signed"
if written; then wrong 'Git writes a signed tag'; else right; fi
same 'a signed tag: the stream breaks off' "syntax at $(wc -c <"$work/stream")
status 3" "$(taken)"
written --signed-tags=strip || wrong 'Git strips no signature'
same 'a signature that is stripped' 'status 0' "$(taken)"
named 'a signature that is stripped' "$(object "$(at 1)" commit odd "$tagger" $'signed\n')"
written --signed-tags=verbatim || wrong 'Git keeps no signature'
rm "$work/fresh"
same 'a signature that is kept' 'status 0' "$(taken)"
named 'a signature that is kept' "$(git -C "$work/odd" rev-parse odd)"

odd main commit '' $'no tagger\n'
written || wrong 'Git writes no tag without a tagger'
same 'without a tagger' "syntax at $(place 'data 10')
status 3" "$(taken)"
written --fake-missing-tagger || wrong 'Git fakes no tagger'
same 'with a tagger that is made up' 'status 0' "$(taken)"
named 'with a tagger that is made up' \
    "$(object "$(at 1)" commit odd $'tagger Unspecified Tagger <unspecified-tagger> 0 +0000\n' $'no tagger\n')"

odd main commit "$tagger" $'inner\n'
git -C "$work/odd" -c advice.nestedTag=false tag -a -m outer outer odd
if written; then wrong 'Git writes a tag of a tag'; else right; fi
same 'a tag of a tag: the stream breaks off' "syntax at $(wc -c <"$work/stream")
status 3" "$(taken)"
written --tag-of-filtered-object=drop || wrong 'Git drops no tag of a tag'
same 'a tag of a tag, dropped' 'status 0' "$(taken)"
same 'a tag of a tag, dropped: the inner one has both names' "odd $(git -C "$work/odd" rev-parse odd)
outer $(object "$(at 1)" commit outer "$tagger" $'inner\n')" "$("$proj" "$work/fresh" tags $main :nop)"
rm "$work/fresh"
written --mark-tags || wrong 'Git marks no tags'
same 'a tag of a tag, with marks' "unsupported zero name at $(place "from 0\\{40\\}")
status 4" "$(taken)"
git -C "$work/odd" tag -d outer >"$work/out"
written --mark-tags --show-original-ids || wrong 'Git marks no tags'
same 'a tag with a mark' 'status 0' "$(taken)"
named 'a tag with a mark' "$(git -C "$work/odd" rev-parse odd)"

odd main:a/f blob "$tagger" $'of a file\n'
written || wrong 'Git writes no tag of a blob'
same 'a tag of a blob' "unresolved at $(($(place 'tag odd') + 8))
status 5" "$(taken)"
odd main:a tree "$tagger" $'of a directory\n'
written || wrong 'Git refuses a tag of a tree'
same 'a tag of a tree, which Git leaves out' 'status 0' "$(taken)"
if [ -z "$("$proj" "$work/fresh" tags $main :nop)" ]; then right; else wrong 'a tag of a tree comes'; fi

for line in 'A <a@x> -1 +0000' 'A <a@x> 1' 'A a@x 1 +0000' 'A <a@x> 1234567890123456789 +0000' 'A <a<b@x> 1 +0000'; do
    odd main commit "tagger $line"$'\n' $'odd\n'
    written || wrong "Git writes no tag of $line"
    same "the tagger $line" "syntax at $(place "tagger $line")
status 3" "$(taken)"
done
for line in '<a@x> 1 +0000' 'A  B <> 1 +1' 'A <a@x> 1 +051800' 'A <a@x> 123456789012345678 -9999' 'a.b <a x> 00 +00'; do
    odd main commit "tagger $line"$'\n' $'odd\n'
    written || wrong "Git writes no tag of $line"
    same "the tagger $line" 'status 0' "$(taken)"
    named "the tagger $line" "$(git -C "$work/odd" rev-parse odd)"
done

# a tag under another name than its object has: the name of the ref counts, as for `git fast-import`
odd main commit "$tagger" $'renamed\n'
git -C "$work/odd" update-ref refs/tags/even "$(git -C "$work/odd" rev-parse odd)"
git -C "$work/odd" tag -d odd >"$work/out"
written || wrong 'Git writes no tag of another name'
same 'a tag under another name' 'status 0' "$(taken)"
same 'a tag under another name' "even $(object "$(at 1)" commit even "$tagger" $'renamed\n')" \
    "$("$proj" "$work/fresh" tags $main :nop)"

# ---- the other commands

base=$("$proj" "$store" project $main :/a)
{
    commit main 1 "from $base"$'\n' f pushed
    printf 'tag pushed\nfrom %s\n%sdata 0\n' $main "$tagger"
} >"$work/stream"
refused_push=$(said "$store" push $main :/a <"$work/stream")
same 'a push with a tag' "unsupported tag at $(place 'tag pushed')
status 4" "$refused_push"
exported >"$work/stream"
same 'name, of a stream with tags' "$("$proj" "$store" project refs/heads/side :/a)" \
    "$("$proj" name refs/heads/side :/a <"$work/stream")"
"$proj" "$work/single" import <"$work/stream" >"$work/out"
"$proj" "$work/single" tags $main :/a >"$work/lines"
{
    printf 'import\nbytes %d\n' "$(wc -c <"$work/stream")"
    cat "$work/stream"
    for words in "tags $main" "export --tags $main" 'tags refs/heads/none'; do
        printf '\n%s :/a\nbytes 0\n' "$words"
    done
    printf '\n'
} | "$proj" "$work/batched" batch >"$work/replies" || wrong 'a batch with tags is refused'
{
    printf 'status 0\nbytes %d\n' "$(wc -c <"$work/out")"
    cat "$work/out"
    printf '\nstatus 0\nbytes %d\n' "$(wc -c <"$work/lines")"
    cat "$work/lines"
    printf '\nstatus 2\nbytes 0\n\nstatus 8\nbytes 0\n\n'
} >"$work/wanted"
if cmp -s "$work/replies" "$work/wanted"; then right; else
    wrong "a batch with tags: $(diff "$work/wanted" "$work/replies" | head -n 4)"
fi
if cmp -s "$work/batched" "$work/single"; then right; else wrong 'a batch leaves another store than an import'; fi
for words in 'tags' 'export --tags'; do
    # shellcheck disable=SC2086
    same "$words of no ref" $'unknown ref\nstatus 8' "$(said "$store" $words refs/heads/none :/a)"
    # shellcheck disable=SC2086
    same "$words through no filter" $'filter: syntax\nstatus 9' "$(said "$store" $words refs/heads/none :/)"
done

counted
