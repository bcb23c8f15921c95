#!/usr/bin/env bash
# Times the shape of real monorepos, many sibling directories: an import beside `git fast-import` without compression and
# deltas, loading beside `git hash-object` of the journal, and pushes of one commit in a batch, behind the first through
# its filter. Its words are how many directories stand below `packages` (2000), how many files each has (10), how many
# commits change one to four files of one of them (5000), how many pushes a batch has (200), and how often each is done
# (3). The runs of what is compared take turns, and times are those of the processor.
set -u
cd "$(dirname "$0")/.." || exit 1
label=packages
. scripts/lib.sh
needs git mktemp awk sort cp wc
begin
own_settings
directories=${1:-2000}
files=${2:-10}
commits=${3:-5000}
pushes=${4:-200}
runs=${5:-3}
main=refs/heads/main

# The stream: a commit with all files, and the others behind it.
awk -v directories="$directories" -v files="$files" -v commits="$commits" '
    function draw(n) { seed = (seed * 16807) % 2147483647; return seed % n }
    function put(i, j, size) {
        text = ""
        for (n = 0; n < size; n++) text = text "line " draw(1000000) " of a file that is some lines long\n"
        printf "M 100644 inline packages/p%05d/f%d\ndata %d\n%s\n", i, j, length(text), text
    }
    function head(k) {
        printf "commit refs/heads/main\nmark :%d\ncommitter A <a@x> %d +0000\ndata 7\nchange\n", k + 1, 1700000000 + k
        if (k > 0) printf "from :%d\n", k
    }
    BEGIN {
        seed = 7
        head(0)
        for (i = 0; i < directories; i++) for (j = 0; j < files; j++) put(i, j, 12)
        for (k = 1; k <= commits; k++) {
            head(k)
            i = draw(directories)
            for (m = draw(4) + 1; m > 0; m--) put(i, draw(files), 8 + draw(8))
        }
        print "done"
    }' >"$work/stream"

# a batch of so many pushes of one commit, each upon the projection as it is then
batch() {
    local i input
    for ((i = 0; i < $1; i++)); do
        input=$(printf 'commit %s\ncommitter A <a@x> %d +0000\ndata 2\nc\nfrom %s^0\nM 100644 inline new\ndata %d\n%d' \
            $main $((1800000000 + i)) $main ${#i} "$i")
        printf 'push %s :/packages/p00000\nbytes %d\n%s\n' $main ${#input} "$input"
    done
}

# what it is, and words whose processor time is taken
timed() {
    local what=$1 TIMEFORMAT='%U %S'
    shift
    { time "$@" >"$work/out" 2>"$work/err" || : >"$work/refused"; } 2>"$work/time"
    [ ! -e "$work/refused" ] || fail "refused: $what: $(cat "$work/err")"
    awk '{ printf "%.3f\n", $1 + $2 }' "$work/time" >>"$work/times.${what//[^a-z]/_}"
}

least() {
    sort -n "$work/times.${1//[^a-z]/_}" | head -n 1
}

by_git() {
    rm -rf "$work/git"
    git init -q --bare "$work/git" && git -C "$work/git" -c core.compression=0 -c pack.compression=0 \
        fast-import --quiet --depth=0 <"$work/stream"
}

import() {
    rm -f "$work/store"
    "$proj" "$work/store" import <"$work/stream"
}

pushed() {
    cp "$work/store" "$work/pushed"
    "$proj" "$work/pushed" batch <"$1"
}

batch 1 >"$work/one"
batch $((pushes + 1)) >"$work/more"
: >"$work/none"
for ((run = 0; run < runs; run++)); do
    timed 'git fast-import' by_git
    timed 'import' import
    timed 'git hash-object of the journal' git hash-object -t blob --stdin <"$work/store"
    timed 'loading' "$proj" "$work/store" tags $main ':/none'
    timed 'a push' pushed "$work/one"
    timed 'pushes' pushed "$work/more"
    [ "$(grep -c '^status 0$' "$work/out")" -eq $((pushes + 1)) ] || fail 'a push was refused'
done
printf '%d files in %d directories, %d commits, a journal of %d MB\n' $((directories * files)) "$directories" \
    $((commits + 1)) $(($(wc -c <"$work/store") / 1000000))
awk -v git="$(least 'git fast-import')" -v here="$(least import)" -v hash="$(least 'git hash-object of the journal')" \
    -v load="$(least loading)" -v one="$(least 'a push')" -v more="$(least pushes)" -v n="$pushes" 'BEGIN {
    printf "import %.2f s, git fast-import %.2f s: %.3f of it\n", here, git, here / git
    printf "loading and projecting to nothing %.2f s, git hash-object %.2f s: %.2f of it\n", load, hash, load / hash
    printf "a further push in a batch %.2f ms\n", 1000 * (more - one) / n
}'
