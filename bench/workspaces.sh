#!/usr/bin/env bash
# Times what a workspace of many places costs: the projected history of commits that change a file or two of one
# directory among many, through workspaces that list more and more of these directories; and pushes in a batch, behind
# the first, that change a file, and that change the workspace's own file. Its words are how many directories stand
# below `packages` (2000), how many commits there are (500), how often each is done (3), and the numbers of places (20
# 100 200 400). Of each number there is a store of its own. The runs take turns, and times are those of the processor.
set -u
cd "$(dirname "$0")/.." || exit 1
label=workspaces
. scripts/lib.sh
needs git mktemp awk sort wc
begin_reading
directories=${1:-2000}
commits=${2:-500}
runs=${3:-3}
places=("${@:4}")
[ ${#places[@]} -gt 0 ] || places=(20 100 200 400)
main=refs/heads/main

# The lines of a workspace that lists so many of the directories, in order.
listing() {
    awk -v directories="$directories" -v places="$1" 'BEGIN {
        for (i = 0; i < places; i++) {
            name = sprintf("p%05d", int(i * directories / places))
            printf "deps/%s = :/packages/%s\n", name, name
        }
    }'
}

# The stream of a history with such a workspace.
stream() {
    listing=$(listing "$1") awk -v directories="$directories" -v commits="$commits" -v places="$1" '
        function draw(n) { seed = (seed * 16807) % 2147483647; return seed % n }
        function listed(i) { return sprintf("p%05d", int(i * directories / places)) }
        function put(path, text) { printf "M 100644 inline %s\ndata %d\n%s\n", path, length(text), text }
        function head(k) {
            printf "commit refs/heads/main\nmark :%d\n", k + 1
            printf "committer A <a@x> %d +0000\ndata 7\nchange\n", 1700000000 + k
            if (k > 0) printf "from :%d\n", k
        }
        BEGIN {
            seed = 7
            head(0)
            put("ws/workspace.josh", ENVIRON["listing"] "\n")
            for (i = 0; i < directories; i++) for (j = 0; j < 10; j++)
                put(sprintf("packages/p%05d/f%d", i, j), "file " draw(1000000) "\n")
            for (k = 1; k <= commits; k++) {
                head(k)
                i = draw(places)
                for (m = draw(2) + 1; m > 0; m--)
                    put("packages/" listed(i) "/f" draw(10), "file " draw(1000000) "\n")
            }
            print "done"
        }'
}

# a batch of so many pushes of one commit, each upon the projection as it is then: a path, and the text that its file
# gets, with the number of the push in place of `#`
batch() {
    local i input text
    for ((i = 0; i < $1; i++)); do
        text=${3/\#/$i}
        input=$(printf 'commit %s\ncommitter A <a@x> %d +0000\ndata 2\nc\nfrom %s^0\nM 100644 inline %s\ndata %d\n%s' \
            $main $((1800000000 + i)) $main "$2" ${#text} "$text")
        printf 'push %s :workspace=ws\nbytes %d\n%s\n' $main ${#input} "$input"
    done
}

# a batch upon a copy of a store
pushed() {
    cp "$1" "$work/pushed"
    "$proj" "$work/pushed" batch <"$2"
}

# what it is, how many places, and words whose processor time is taken
timed() {
    local what=$1.$2 TIMEFORMAT='%U %S'
    shift 2
    { time "$@" >"$work/out" 2>"$work/err" || : >"$work/refused"; } 2>"$work/time"
    [ ! -e "$work/refused" ] || fail "refused: $what: $(cat "$work/err")"
    awk '{ printf "%.3f\n", $1 + $2 }' "$work/time" >>"$work/times.$what"
}

least() {
    sort -n "$work/times.$1.$2" | head -n 1
}

pushes=20
for count in "${places[@]}"; do
    stream "$count" | "$proj" "$work/store.$count" import >"$work/out" || fail 'import refuses the history'
    lines="deps/more = :/none#"$'\n'"$(listing "$count")"
    for n in 1 $((pushes + 1)); do
        batch "$n" deps/p00000/f0 'text #' >"$work/file.$count.$n"
        batch "$n" workspace.josh "$lines" >"$work/lines.$count.$n"
    done
done
for ((run = 0; run < runs; run++)); do
    for count in "${places[@]}"; do
        timed loading "$count" "$proj_read" "$work/store.$count" refs
        timed history "$count" "$proj_read" "$work/store.$count" new $main :workspace=ws
        [ "$(grep -c '^commit ' "$work/out")" -gt "$commits" ] || fail 'a commit is lost'
        for what in file lines; do
            for n in 1 $((pushes + 1)); do
                timed "$what$n" "$count" pushed "$work/store.$count" "$work/$what.$count.$n"
                [ "$(grep -c '^status 0$' "$work/out")" -eq "$n" ] || fail 'a push was refused'
            done
        done
    done
done
printf '%d directories, %d commits\n' "$directories" $((commits + 1))
for count in "${places[@]}"; do
    awk -v load="$(least loading "$count")" -v all="$(least history "$count")" -v n=$((commits + 1)) \
        -v places="$count" 'BEGIN {
            printf "%d places: loading %.2f s, with the projected history %.2f s, ", places, load, all
            printf "%.3f ms a commit\n", 1000 * (all - load) / n
        }'
    awk -v one="$(least file1 "$count")" -v more="$(least "file$((pushes + 1))" "$count")" -v n=$pushes \
        -v one_of="$(least lines1 "$count")" -v more_of="$(least "lines$((pushes + 1))" "$count")" 'BEGIN {
            printf "    a further push of a file %.2f ms, ", 1000 * (more - one) / n
            printf "of the workspace%ss file %.2f ms\n", "\047", 1000 * (more_of - one_of) / n
        }'
done
