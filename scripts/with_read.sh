#!/usr/bin/env bash
# What `proj_read` tells of a store, beside a real Git: of a made history with merges, moves, modes, links, modules, odd
# names and commits without a change, and of this repository. By several filters `new` gives the names that `export`
# gives, from nothing and into repositories that have a part of it, with what Git says has changed and no more;
# `originals` brings pushed work back; `log`, `refs`, `check` and tags are as Git and `proj` have them. And what is told
# where words are wrong, the file is no store, or somebody else has it. No call changes the file.
set -u
cd "$(dirname "$0")/.." || exit 1
label='read'
. scripts/lib.sh
needs git mktemp awk sed sort grep uniq tail head cut cat cmp cp wc tr seq rm dd mkfifo sleep chmod paste diff
begin_reading
own_settings
export LC_ALL=C
export GIT_AUTHOR_NAME=A GIT_AUTHOR_EMAIL=a@x GIT_AUTHOR_DATE='@1800000000 +0000'
export GIT_COMMITTER_NAME=A GIT_COMMITTER_EMAIL=a@x GIT_COMMITTER_DATE='@1800000000 +0000'
git config --file "$work/config" core.compression 0
git config --file "$work/config" uploadpack.allowAnySHA1InWant true
store=$work/store
main=refs/heads/main
readings=0
altered=0

# ---- how it is asked

# From now on each reading leaves the store as it is now.
keep() {
    cp "$store" "$work/kept"
}

# Reads the store: the answer is in the file `answer`, what is told in `told`, and how it ended in `status`.
reads() {
    "$proj_read" "$store" "$@" >"$work/answer" 2>"$work/told"
    status=$?
    readings=$((readings + 1))
    cmp -s "$store" "$work/kept" || altered=$((altered + 1))
}

# what is asked, and the words, which must be answered
answers() {
    local what=$1
    shift
    reads "$@"
    [ "$status" -eq 0 ] && [ ! -s "$work/told" ] || wrong "$what: status $status, $(cat "$work/told")"
}

# what it is, and two files that must have the same bytes
equal() {
    if cmp -s "$2" "$3"; then right; else wrong "$1: $(diff "$2" "$3" | head -n 3 | tr '\n' ' ')"; fi
}

# Of a stream: how many commits, blobs, deleted paths and put ones it has.
sizes() {
    awk 'left > 0 { left -= length($0) + 1; next }
        /^data / { left = $2 + 1; next }
        /^(commit|blob|D|M)( |$)/ { n[$1]++ }
        END { print n["commit"] + 0, n["blob"] + 0, n["D"] + 0, n["M"] + 0 }' "$1"
}

# The same by Git, of commits of a repository, each beside its first parent.
sizes_by_git() {
    git -C "$1" log --format=%H --diff-merges=first-parent --no-renames --raw --no-abbrev "${@:2}" | awk '
        /^[0-9a-f]/ { commits++ }
        /^:/ && $5 == "D" { gone++ }
        /^:/ && $5 != "D" { put++ }
        /^:/ && $5 != "D" && $2 != "160000" && !seen[$4]++ { blobs++ }
        END { print commits + 0, blobs + 0, gone + 0, put + 0 }'
}

# Has Git read a stream into a repository, which must be sound then.
taken() {
    git -C "$work/$2" fast-import --quiet <"$3" 2>"$work/err" || wrong "$1: Git refuses it: $(head -n 1 "$work/err")"
    git -C "$work/$2" fsck --strict --no-dangling >"$work/err" 2>&1 || wrong "$1: fsck: $(head -n 1 "$work/err")"
}

# An empty repository, or one with commits of another one: its name, and names of commits.
fresh() {
    local name=$1 commit
    rm -rf "${work:?}/$name"
    git init -q --bare "$work/$name" || exit 1
    shift
    for commit in "$@"; do
        git -C "$work/$name" fetch -q --no-tags "$work/whole" "$commit:refs/heads/base$((++base))" ||
            wrong "no repository with $commit"
    done
}
base=0

# ---- `new`, beside `export`

# With these commits there, `new` brings the rest, and writes no more than that.
upon() {
    local what="$1, upon $2" ref=$3 filter=$4 name=$5
    shift 5
    answers "$what" new "$ref" "$filter" "$@"
    same "$what: what it writes" "$(sizes_by_git "$work/whole" "$ref" --not "$@")" "$(sizes "$work/answer")"
    fresh part "$@"
    taken "$what" part "$work/answer"
    same "$what: its name" "$name" "$(git -C "$work/part" rev-parse -q --verify "$ref")"
}

# A ref and a filter: by Git's reading of `export` and of `new`, the same commits.
agrees() {
    local ref=$1 filter=$2 what="$1 $2" name commits files n k
    name=$("$proj" "$store" project "$ref" "$filter") || wrong "$what: project"
    "$proj" "$store" export "$ref" "$filter" >"$work/text" || wrong "$what: export"
    keep
    answers "$what: check" check "$ref" "$filter"
    files=$(sed -n 's/^files //p' "$work/answer")
    answers "$what" new "$ref" "$filter"
    if [ "$name" = none ]; then
        equal "$what, of which nothing is shown" "$work/text" "$work/answer"
        same "$what, of which nothing is shown: its files" 0 "$files"
        return
    fi
    fresh whole
    taken "$what: export" whole "$work/text"
    same "$what: export" "$name" "$(git -C "$work/whole" rev-parse "$ref")"
    same "$what: its files" "$(git -C "$work/whole" ls-tree -r "$ref" | wc -l)" "$files"
    fresh all
    taken "$what" all "$work/answer"
    same "$what: its name" "$name" "$(git -C "$work/all" rev-parse "$ref")"
    same "$what: what it writes" "$(sizes_by_git "$work/whole" "$ref")" "$(sizes "$work/answer")"
    mapfile -t commits < <(git -C "$work/whole" rev-list --reverse --topo-order "$ref")
    n=${#commits[@]}
    for k in $(printf '%d\n' 1 $((n / 3)) $((n / 2)) $((n - 1)) | sort -nu); do
        [ "$k" -lt 1 ] || [ "$k" -ge "$n" ] ||
            upon "$what" "commit $k of $n" "$ref" "$filter" "$name" "${commits[k - 1]}"
    done
    if [ "$n" -gt 2 ]; then
        upon "$what" 'two commits' "$ref" "$filter" "$name" "${commits[n / 2]}" "${commits[n - 2]}"
        upon "$what" 'three commits' "$ref" "$filter" "$name" "${commits[0]}" "${commits[n / 3]}" \
            "${commits[n / 2 - 1]}"
        # shellcheck disable=SC2046
        upon "$what" 'the parents' "$ref" "$filter" "$name" $(git -C "$work/whole" log -1 --format=%P "$ref")
    fi
    cp "$work/answer" "$work/before"
    answers "$what, with what nobody knows" new "$ref" "$filter" "$(printf '%040d' 7)"
    taken "$what, with what nobody knows" all "$work/answer"
    same "$what, with what nobody knows" "$(sizes_by_git "$work/whole" "$ref")" "$(sizes "$work/answer")"
    for k in "$name" "$(printf '%040d' 7) $name $name" "${commits[*]}"; do
        # shellcheck disable=SC2086
        answers "$what, all there" new "$ref" "$filter" $k
        same "$what, all there" 'nothing' "nothing$(cat "$work/answer")"
    done
}

# ---- a made history

number=0

# a commit's lines before its changes: its ref, its mark, its parents' marks
commit() {
    number=$((number + 1))
    printf 'commit refs/heads/%s\nmark :%d\nauthor A U Thor <a%d@x> %d +0%d00\n' "$1" "$2" $((number % 3)) \
        $((1700000000 + number)) $((number % 9))
    printf 'committer C O Mitter <c@x> %d -0330\ndata 8\ncommit\n\n' $((1700000000 + number))
    shift 2
    [ $# -eq 0 ] || printf 'from :%d\n' "$1"
    [ $# -lt 2 ] || printf 'merge :%d\n' "${@:2}"
}

# a file: its mode, its path, its text
file() {
    printf 'M %s inline %s\ndata %d\n%s\n' "$1" "$2" ${#3} "$3"
}

history() {
    local i
    commit main 1
    file 100644 a/f hello
    file 100755 bin/run $'data 5\ncommit refs/heads/main\n\nM 100644 inline a/f\n'
    file 120000 link a/f
    printf 'M 160000 3b18e512dba79e4c8300dd08aeb37f8e728b8dad sub\nM 160000 %040d a/module\n' 5
    file 100644 '"sp ace/\303\251\t\"q\""' odd
    file 100644 '"a/two\nlines"' odd
    file 100644 '"a/\377\\ \001"' odd
    file 100644 '"a/ \"quoted\" "' odd
    file 100644 a.txt 1
    file 100644 a0 2
    file 100644 ws/workspace.josh $'x = :/a\ny = :/d1\n'
    for i in $(seq 2 30); do
        commit main "$i" $((i - 1))
        file 100644 "d$((i % 7))/e$((i % 5))/f$((i % 11))" "content $i"
        [ $((i % 6)) -ne 0 ] || printf 'R d%d d%dx\n' $((i % 7)) $((i % 7))
        [ $((i % 9)) -ne 0 ] || printf 'C a "c\\303\\244%d"\n' "$i"
        [ $((i % 10)) -ne 0 ] || printf 'D d%d/e%d\n' $(((i + 1) % 7)) $(((i + 1) % 5))
        [ $((i % 8)) -ne 0 ] || file 100644 "a/d/e$((i % 3))/g" "$i"
    done
    for i in 1 2 3; do
        commit "side$i" $((100 + i)) $((i * 7))
        file 100644 "side$i/only" "$i"
        file 100644 "a/side$i" "$i"
        printf 'D a/f\n'
    done
    commit main 200 30 101 102 103
    file 100644 side1/only 1
    file 100644 a/side1 1
    commit main 201 200
    commit main 202 201
    printf 'D a.txt\n'
    file 100644 a.txt/inner 'a file becomes a directory'
    printf 'D a/f\n'
    file 100644 a/f/deep/er 'here too'
    commit main 203 202
    printf 'D a.txt/inner\n'
    file 100644 a.txt 'and back'
    printf 'D a/f/deep/er\n'
    file 120000 a/f/deep 'a link'
    commit main 204 203
    file 100755 a0 2
    file 120000 a/d 'a directory becomes a link'
    printf 'M 160000 %040d sub\nD a/module\n' 9
    file 100644 a/module 'a module becomes a file'
    commit main 205 204
    printf 'D a/d\n'
    file 100644 a/d/again '2'
    file 100644 link 'a link becomes a file'
    printf 'M 160000 %040d a/module\nM 160000 %040d a/f\n' 5 6
    file 100644 ws/workspace.josh $'x = :/a\ny = :/d2\nz = :/bin\n'
    commit root 300
    file 100644 a/r root
    commit root 301
    file 100644 r 'another root'
    commit main 206 205 300
    file 100644 a/r root
    commit main 207 206 301
    commit main 208 207
    printf 'deleteall\n'
    commit main 209 208
    commit main 210 209
    file 100644 a/f hello
    file 100644 ws/workspace.josh $'x = :/a\n'
    commit theirs 211 207
    file 100644 a/t 't'
    commit main 212 210 211
    printf 'deleteall\n'
    file 100644 a/t 't'
    file 100644 a/f hello
    file 100644 ws/workspace.josh $'x = :/a\n'
    commit main 213 212 206
    for i in $(seq 214 220); do
        commit main "$i" $((i - 1))
        [ $((i % 3)) -ne 0 ] || file 100644 a/last "$i"
        [ $((i % 3)) -ne 1 ] || file 100644 b/last "$i"
    done
    printf 'reset refs/heads/old\nfrom :7\n\n'
    for i in 3 201 213 220; do
        printf 'tag v%d\nfrom :%d\ntagger T <t@x> %d +0000\ndata 2\nm\n' "$i" "$i" $((1700000000 + i))
    done
}

history >"$work/stream"
git init -q --bare "$work/made"
git -C "$work/made" fast-import --quiet --export-marks="$work/marks" <"$work/stream" || fail 'Git refuses the history'
"$proj" "$store" import <"$work/stream" >"$work/out" || fail 'import refuses the history'
git -C "$work/made" for-each-ref --format='%(refname) %(objectname)' refs/heads >"$work/refs"
keep
answers refs refs
equal 'the refs' "$work/refs" "$work/answer"

# Of these paths something is shown, or nothing.
filters=(:nop :/a :/bin :/d1/e1 ::a/ ::link :prefix=p ':exclude[::d1/]' ':exclude[::a/]' ':[x=:/a,y=:/bin]'
    ':[x=:/d1,::a/f]' :workspace=ws :/none)
for filter in "${filters[@]}"; do
    agrees $main "$filter"
done
for ref in refs/heads/side2 refs/heads/theirs refs/heads/root refs/heads/old; do
    agrees "$ref" :nop
    agrees "$ref" :/a
done

# By rule 2 a merge isn't shown where it has the tree of a parent that descends from the others.
cp "$store" "$work/by_rule_1"
"$proj" "$store" rule 2 >"$work/out"
for filter in :nop :/a ':exclude[::a/]' :workspace=ws; do
    agrees $main "$filter"
done
if cmp -s "$store" "$work/by_rule_1"; then wrong 'rule 2 changes nothing'; else right; fi
mv "$work/by_rule_1" "$store"

# ---- `originals`

# The ref's own history in a repository, of which the store has it: from nothing, and upon each of so many commits.
original() {
    local made=$1 ref=$2 each=$3 what="originals $2" name commit
    name=$(git -C "$made" rev-parse "$ref")
    rm -rf "$work/whole"
    cp -r "$made" "$work/whole"
    answers "$what" originals "$ref"
    same "$what: what it writes" "$(sizes_by_git "$made" "$ref")" "$(sizes "$work/answer")"
    fresh all
    taken "$what" all "$work/answer"
    same "$what: its name" "$name" "$(git -C "$work/all" rev-parse "$ref")"
    for commit in $(git -C "$made" rev-list "$ref" | awk -v each="$each" 'NR % each == 2'); do
        answers "$what ^$commit" originals "$ref" "$commit"
        same "$what ^$commit: what it writes" "$(sizes_by_git "$made" "$ref" "^$commit")" "$(sizes "$work/answer")"
        fresh part "$commit"
        taken "$what ^$commit" part "$work/answer"
        same "$what ^$commit: its name" "$name" "$(git -C "$work/part" rev-parse -q --verify "$ref")"
    done
    answers "$what, all there" originals "$ref" "$name" "$(printf '%040d' 7)"
    same "$what, all there" 'nothing' "nothing$(cat "$work/answer")"
}
keep
while read -r ref _; do
    original "$work/made" "$ref" 9
done <"$work/refs"

# ---- `log`

# A copy of the store, in which each commit has a ref of its own, tells the projections of all of them.
cp "$store" "$work/each"
git -C "$work/made" rev-list --branches >"$work/commits"
while read -r commit; do printf 'reset refs/each/%s\nfrom %s\n' "$commit" "$commit"; done <"$work/commits" |
    "$proj" "$work/each" import >"$work/out" || fail 'import refuses commits that are there'

# The lines of `log`, in the order of the commits' names, as Git and `project` say.
logged() {
    git -C "$work/made" rev-list "$1" | sort >"$work/listed"
    while read -r commit; do printf 'project refs/each/%s %s\nbytes 0\n\n' "$commit" "$2"; done <"$work/listed" |
        "$proj" "$work/each" batch | sed -n '/^bytes /{n;p;}' | paste -d ' ' "$work/listed" -
}
for ref in $main refs/heads/side3 refs/heads/root; do
    for filter in "${filters[@]}"; do
        what="log $ref $filter"
        answers "$what" log "$ref" "$filter"
        logged "$ref" "$filter" >"$work/wanted"
        sort "$work/answer" >"$work/sorted"
        equal "$what" "$work/wanted" "$work/sorted"
        git -C "$work/made" rev-list --parents "$ref" >"$work/listed"
        same "$what: parents first" none "none$(awk 'NR == FNR { at[$1] = FNR; next }
            { for (i = 2; i <= NF; i++) if (at[$i] > at[$1]) print }' "$work/answer" "$work/listed")"
        same "$what: the ref's own commit is the last" "$(git -C "$work/made" rev-parse "$ref") $(
            "$proj" "$work/each" project "$ref" "$filter")" "$(tail -n 1 "$work/answer")"
    done
done

# ---- `check`

# What is told of a filter and a commit of three files and of what these lines change.
checks=0
checked() {
    local what=$1 filter=$2 wanted=$3 changes=$4 ref
    checks=$((checks + 1))
    ref=refs/checked/$checks
    {
        printf 'commit %s\ncommitter A <a@x> 1700000000 +0000\ndata 0\n' "$ref"
        file 100644 lib/a 1
        file 100644 lib/b 2
        file 100644 docs/d 3
        printf '%s\n' "$changes"
    } | "$proj" "$work/checked" import >"$work/out" || wrong "$what: import"
    cp "$work/checked" "$work/kept"
    answers "$what" check "$ref" "$filter"
    same "$what: what is told" "$wanted" "$(cat "$work/answer")"
}
listing() {
    file 100644 "${2:-ws/workspace.josh}" "$1"
}
made_store=$store
store=$work/checked
checked 'no workspace' :/lib 'files 2' ''
checked 'nothing is shown' :/lib/none 'files 0' ''
checked 'no listing' :workspace=ws $'files 0\nworkspace ws/workspace.josh absent' ''
checked 'a directory in its place' :workspace=ws $'files 1\nworkspace ws/workspace.josh absent' \
    "$(file 100644 ws/workspace.josh/x 1)"
checked 'a link in its place' :workspace=ws $'files 1\nworkspace ws/workspace.josh no file' \
    "$(file 120000 ws/workspace.josh ../lib)"
checked 'a module in its place' :workspace=ws $'files 1\nworkspace ws/workspace.josh no file' \
    "$(printf 'M 160000 %040d ws/workspace.josh' 5)"
checked 'no text of items' :workspace=ws $'files 1\nworkspace ws/workspace.josh syntax' "$(listing $'x = \n')"
checked 'an empty listing' :workspace=ws $'files 1\nworkspace ws/workspace.josh items 0' "$(listing '')"
checked 'two items' :workspace=ws $'files 4\nworkspace ws/workspace.josh items 2' \
    "$(listing $'x = :/lib\ny = :/docs\n')"
checked 'places that meet' :workspace=ws \
    $'files 1\nworkspace ws/workspace.josh overlap: list 0, branches 0 and 2' \
    "$(listing $'x = :/lib\ny = :/docs\nx/z = ::docs/d\n')"
checked 'a path in two places' :workspace=ws \
    $'files 1\nworkspace ws/workspace.josh overlap: list 0, branches 0 and 1' "$(listing $'x = :/lib\ny = :/lib\n')"
checked 'lists in an item that meet' :workspace=ws \
    $'files 1\nworkspace ws/workspace.josh overlap: list 3, branches 0 and 1' \
    "$(listing $'x = :/lib\ny = :[:/docs,:/tools]\n')"
checked 'an exclude of what moves' :workspace=ws $'files 1\nworkspace ws/workspace.josh not keeping: piece 3' \
    "$(listing $'x = :/lib:exclude[:/a]\n')"
checked 'a listing that a prefix moves' :prefix=p:workspace=p/ws $'files 3\nworkspace ws/workspace.josh items 1' \
    "$(listing $'x = :/p/lib\n')"
checked 'a listing that is not shown' ':exclude[::ws/]:workspace=ws' $'files 0\nworkspace none' \
    "$(listing $'x = :/lib\n')"
checked 'a listing of an odd name' ':workspace="w\ts"' $'files 2\nworkspace "w\\ts/workspace.josh" items 1' \
    "$(listing $'x = ::docs/d\n' '"w\ts/workspace.josh"')"
store=$made_store

# ---- annotated tags

# The tags of a repository, as `tags` prints them.
tags_in() {
    git -C "$work/$1" for-each-ref --format='%(refname:strip=2) %(objectname)' "${@:2}" refs/tags | sort
}

# With names `new` writes these, and then what it writes with tags, which is the answer before.
named() {
    local filter=$1
    shift
    mv "$work/answer" "$work/tagged"
    answers "log $filter" log $main "$filter"
    { tail -n 1 "$work/answer" && "$proj" "$store" tags $main "$filter" && printf '\n' && cat "$work/tagged"; } \
        >"$work/named"
    answers "new --names $filter $*" new --names $main "$filter" "$@"
    cmp -s "$work/answer" "$work/named" && right || wrong "what new --names $filter $* writes"
    mv "$work/tagged" "$work/answer"
}
for filter in :nop :/a ':exclude[::a/]' :/none; do
    "$proj" "$store" tags $main "$filter" | sort >"$work/wanted"
    keep
    answers "new $filter" new $main "$filter"
    cp "$work/answer" "$work/text"
    answers "new --tags $filter" new --tags $main "$filter"
    if cmp -s -n "$(wc -c <"$work/text")" "$work/text" "$work/answer"; then right; else
        wrong "new --tags $filter does not begin as new"
    fi
    named "$filter"
    fresh whole
    taken "new --tags $filter" whole "$work/answer"
    tags_in whole >"$work/found"
    cmp -s "$work/found" "$work/wanted" && right || wrong "the tags of new --tags $filter"
    [ -s "$work/wanted" ] || continue
    for have in $(git -C "$work/whole" rev-list $main | awk 'NR % 10 == 1'); do
        answers "new --tags $filter ^$have" new --tags $main "$filter" "$have"
        fresh part "$have"
        taken "new --tags $filter ^$have" part "$work/answer"
        same "the tags of new --tags $filter ^$have" "$(tags_in whole --no-merged "$have"; printf end)" \
            "$(tags_in part; printf end)"
        named "$filter" "$have"
    done
done

# ---- what was pushed, back in the monorepo

git init -q "$work/mono"
mono() {
    git -C "$work/mono" "$@"
}
# Commits a file of it: its path and its text.
change() {
    mkdir -p "$work/mono/${1%/*}"
    printf '%s\n' "$2" >"$work/mono/$1"
    mono add -A
    mono commit -q -m "$1"
}
change a/f one
mono commit -q --allow-empty -m 'nothing'
change b/g two
mono checkout -q -b side
change b/side three
mono checkout -q main
mono commit -q --allow-empty -m 'nothing again'
mono merge -q -s ours -m 'nothing of the side' side
store=$work/mono.store
mono fast-export --use-done-feature --branches | "$proj" "$store" import >"$work/out" || fail 'import refuses a monorepo'
if [ "$("$proj" "$store" project $main :nop)" = "$(mono rev-parse main)" ]; then wrong 'all is shown'; else right; fi

# Pushes so many commits through a filter.
pushed() {
    local base k
    base=$("$proj" "$store" project $main :/a)
    for k in $(seq "$1"); do
        printf 'commit %s\nmark :%d\nauthor P <p@x> %d +0200\ncommitter A <a@x> %d +0000\ndata 7\npushed\n' \
            $main "$k" $((1700000000 + k)) $((1700000000 + k))
        [ "$k" -gt 1 ] || printf 'from %s\n' "$base"
        file 100644 "pushed$1/$k" "$k"
    done | "$proj" "$store" push $main :/a >"$work/out" || wrong 'a push is refused'
}

# The monorepo fetches what it lacks of the ref, through a bare repository that shares its objects.
comes_back() {
    local what="what was pushed, $1" old
    old=$(mono rev-parse main)
    keep
    answers "$what" originals $main "$old"
    same "$what: how much" "$1" "$(sizes "$work/answer" | cut -d ' ' -f 1)"
    rm -rf "$work/back"
    git clone -q --bare --shared "$work/mono" "$work/back"
    taken "$what" back "$work/answer"
    mono pull -q --ff-only "$work/back" main 2>"$work/err" || wrong "$what: no pull: $(cat "$work/err")"
    answers "$what" refs
    same "$what: the ref" "$main $(mono rev-parse main)" "$(grep "^$main " "$work/answer")"
    same "$what: what it stands upon" "$old" "$(mono rev-parse "main~$1")"
    same "$what: what it says" "$(printf 'P pushed%.0s\n' $(seq "$1"))" "$(mono log -n "$1" --format='%an %s')"
    same "$what: what it changes" "$(printf "a/pushed$1/%d\n" $(seq "$1"))" "$(mono diff --name-only "$old" main)"
    same "$what: the part" "$(mono rev-parse main:a)" "$(
        "$proj" "$store" export $main :/a | git -C "$work/back" fast-import --quiet --force
        git -C "$work/back" rev-parse "$main^{tree}"
    )"
}
pushed 1
comes_back 1
mono commit -q --allow-empty -m 'nothing, above what was pushed'
mono fast-export --use-done-feature --branches | "$proj" "$store" import >"$work/out" || wrong 'the monorepo is refused'
pushed 7
comes_back 7

# ---- this repository

if has_history; then
    store=$work/own.store
    git init -q --bare "$work/own"
    git -C "$work/own" fetch -q "$PWD" HEAD:$main
    git -C "$work/own" fast-export --use-done-feature --reencode=yes $main | "$proj" "$store" import >"$work/out" ||
        wrong 'import refuses this repository'
    same 'this repository' "$main $(git -C "$work/own" rev-parse $main)" "$(cat "$work/out")"
    for filter in :/docs ':[d=:/docs,s=:/scripts]' ':exclude[::crates/]'; do
        agrees $main "$filter"
    done
    original "$work/own" $main 500
    answers 'log of this repository' log $main :nop
    git -C "$work/own" rev-list $main | sort >"$work/wanted"
    cut -d ' ' -f 1 "$work/answer" | sort >"$work/found"
    equal 'log of this repository' "$work/wanted" "$work/found"
fi

# ---- several at once

# A store of which a stream doesn't go into a pipe at once.
store=$work/large
{
    commit main 1
    file 100644 a/f "$(seq 100000)"
} | "$proj" "$store" import >"$work/out" || fail 'import refuses a large file'
keep
answers 'a large file' new $main :/a
cp "$work/answer" "$work/wanted"
mkfifo "$work/pipe"
"$proj_read" "$store" new $main :/a >"$work/pipe" 2>"$work/err" &
child=$!
exec 7<"$work/pipe"
head -c 1 <&7 >"$work/first"
answers 'a reader beside a reader' new $main :/a
equal 'a reader beside a reader' "$work/wanted" "$work/answer"
same 'proj beside a reader' $'store fault\n24' "$("$proj" "$store" project $main :/a 2>&1; printf '%d' $?)"
for fd in "/proc/$child/fd"/*; do
    [ "$(readlink "$fd" 2>"$work/out")" = "$store" ] || continue
    flags=$(sed -n 's/^flags:[[:blank:]]*//p' "/proc/$child/fdinfo/${fd##*/}")
    same 'the file is open for reading alone' 0 "$((flags & 3))"
done
cat "$work/first" - <&7 >"$work/answer"
exec 7<&-
wait "$child"
same 'the first of two readers' 0 $?
child=
equal 'the first of two readers' "$work/wanted" "$work/answer"
answers 'behind both of them' new $main :/a

# `proj` has a store while it waits for its input.
"$proj" "$store" import <"$work/pipe" >"$work/out" 2>"$work/err" &
child=$!
exec 8>"$work/pipe"
for _ in $(seq 200); do
    reads refs
    [ "$status" -ne 24 ] || break
    sleep 0.05
done
for words in refs "log $main :/a" "check $main :/a" "new $main :/a" "originals $main"; do
    # shellcheck disable=SC2086
    reads $words
    same "$words, while proj has the store" 'store fault 24 ' "$(cat "$work/told") $status $(cat "$work/answer")"
done
exec 8>&-
wait "$child"
child=
answers 'when proj has ended' new $main :/a
equal 'when proj has ended' "$work/wanted" "$work/answer"

# ---- words

# what is told of words, and how they end
told() {
    same "$1" "$2" "$(cat "$work/told"; printf 'status %d%s' "$status" "$(cat "$work/answer")")"
}
usage='usage: proj_read STORE (refs | log REF FILTER | check REF FILTER | new [--tags | --names] REF FILTER [HAVE ..] | '
usage+=$'originals REF [HAVE ..])\nstatus 2'
store=$work/store
keep
name=$(git -C "$work/made" rev-parse main)
for words in '' other 'refs x' log "log $main" "log $main :/a x" check "check $main" "check $main :/a x" \
    'check bad..ref :/a' new 'new --tags' "new $main" "new --tags $main" 'new --names' "new --names --tags $main :/a" \
    "new $main :/a x" "new $main :/a $name $name:" "new $main :/a ${name}0" "new $main :/a ${name%?}" \
    "new $main :/a --tags" originals "originals $main :/a" "originals $main ${name%?}" "originals $main $name x" \
    'log bad..ref :/a' 'new a//b :/a' 'originals /a' "project $main :/a" "export $main :/a" 'rule 1' --help; do
    # shellcheck disable=SC2086
    reads $words
    told "the words \`$words\`" "$usage"
done
reads log $main ":/$(printf '\377')"
told 'a word that is no UTF-8' "$usage"
same 'no word at all' "$usage" "$("$proj_read" 2>&1; printf 'status %d' $?)"

# What both programs say of a ref and a filter.
for words in 'refs/heads/none :/a' "$main :/a:" "$main :[x=:/a,x=:/b]" "$main :[:/a,:/b]" "$main :exclude[:/a]" \
    "$main :/" 'refs/heads/none :/' "$main :workspace="; do
    # shellcheck disable=SC2086
    wanted=$("$proj" "$store" project $words 2>&1; printf 'status %d' $?)
    keep
    for form in log check new 'new --tags' 'new --names'; do
        # shellcheck disable=SC2086
        reads $form $words
        told "$form $words" "$wanted"
    done
done
reads originals refs/heads/none
told 'originals of no ref' $'unknown ref\nstatus 8'

same 'the version' 'proj_read 0.1' "$("$proj_read" --version)"
for it in refs log check new originals; do
    same "the help on $it" yes "$("$proj_read" --help | grep -q "^    *proj_read mono.proj $it" && printf yes)"
done
if [ -c /dev/full ]; then
    for words in --help --version "$store refs" "$store log $main :/a" "$store check $main :/a" \
        "$store new $main :/a" "$store originals $main"; do
        # shellcheck disable=SC2086
        same "an output that is full: ${words#"$store "}" $'write fault\nstatus 23' \
            "$("$proj_read" $words 2>&1 >/dev/full; printf 'status %d' $?)"
    done
fi

# ---- files

store=$work/nowhere
: >"$work/kept"
for words in refs "originals $main"; do
    # shellcheck disable=SC2086
    same "no file: $words" $'store fault\nstatus 24' "$("$proj_read" "$store" $words 2>&1; printf 'status %d' $?)"
done
same 'no file is made' none "$([ -e "$store" ] || printf none)"
store=$work/empty
: >"$store"
for words in refs "log $main :/a" "check $main :/a" "new $main :/a" "originals $main"; do
    # shellcheck disable=SC2086
    reads $words
    told "an empty file: $words" $'damaged: journal at 0\nstatus 25'
done
for words in refs "log $main :/a" "new --tags $main :nop" "new --names $main :/a" "originals $main"; do
    # shellcheck disable=SC2086
    same "a directory: $words" $'store fault\nstatus 24' \
        "$("$proj_read" "$work/made" $words 2>&1; printf 'status %d' $?)"
done

# What both say of a file.
damaged() {
    local what=$1 wanted words
    cp "$store" "$work/other"
    wanted=$("$proj" "$work/other" project $main :/a 2>&1; printf 'status %d' $?)
    keep
    case $wanted in *'status 25') ;; *) wrong "$what: proj says $wanted" ;; esac
    for words in refs "log $main :/a" "check $main :/a" "new $main :/a" "originals $main"; do
        # shellcheck disable=SC2086
        reads $words
        told "$what: $words" "$wanted"
    done
}
store=$work/broken
printf 'no store\n' >"$store"
damaged 'a text'
head -c 100000 /dev/zero >"$store"
damaged 'zeros'
size=$(wc -c <"$work/store")
for at in 0 20 40 $((size / 3)) $((size / 2)) $((size - 100)); do
    cp "$work/store" "$store"
    byte=$(dd if="$store" bs=1 skip="$at" count=1 2>"$work/err" | tr '\000-\377' '\001-\377\000'; printf .)
    printf '%s' "${byte%.}" | dd of="$store" bs=1 seek="$at" conv=notrunc 2>"$work/err"
    damaged "byte $at of $size"
done

same "$readings readings change no store" 0 "$altered"
counted
