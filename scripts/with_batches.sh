#!/usr/bin/env bash
# Runs commands of all kinds on one store, each by a process of its own, and the same commands as one batch on a copy
# of the store: the replies must be what the single runs answered, and both stores must show the same. Then the batch
# is ended by SIGKILL at random moments: the store must load, and have the commit of each import and push whose reply
# was read. `COMMITS` is how many commits the store begins with, `ENTRIES` how many commands are run, and `STOPS` how
# often the batch is ended.
set -u
cd "$(dirname "$0")/.." || exit 1
label=batches
. scripts/lib.sh
needs mktemp sleep cat cp cmp rm wc
needs_clock
begin
commits=${COMMITS:-300}
entries=${ENTRIES:-200}
wanted=${STOPS:-20}
RANDOM=${SEED:-1}
main=refs/heads/main

# a commit at this second, upon the parent's line or nothing, that writes the content into a file
commit() {
    printf 'commit %s\ncommitter A <a@x> %d +0000\ndata 2\nc\n%s' $main $((1700000000 + $1)) "$2"
    printf 'M 100644 inline %s\ndata %d\n%s\n' "$3" ${#4} "$4"
}

dirs=(a a/b c d/e)

# the history that the store begins with: one file of some directory in each commit
{
    for ((i = 0; i < commits; i++)); do
        commit "$i" '' "${dirs[i % 4]}/f$((i % 50))" "$i"
    done
    commit "$commits" '' ws/workspace.josh $'x = :/a\ny = :/c'
} >"$work/history"
head=$("$proj" "$work/first" import <"$work/history" 2>"$work/err") ||
    fail "the history is refused: $(cat "$work/err")"
head=${head#"$main" }
head0=$head
cp "$work/first" "$work/single"
: >"$work/batch"
: >"$work/expected"

# Runs the words on the single store with the input that is there, and notes the entry and what is to be its reply.
run() {
    "$proj" "$work/single" "$@" <"$work/input" >"$work/out" 2>"$work/err"
    status=$?
    [ "$status" -lt 100 ] || fail "$*: status $status"
    note "$*"
}

# notes an entry with these words, as it was answered
note() {
    local size
    size=$(wc -c <"$work/input")
    { printf '%s\nbytes %d\n' "$1" "$size"; cat "$work/input"; printf '\n'; } >>"$work/batch"
    [ "$status" -eq 0 ] || : >"$work/out"
    size=$(wc -c <"$work/out")
    { printf 'status %d\nbytes %d\n' "$status" "$size"; cat "$work/out"; printf '\n'; } >>"$work/expected"
    count=$((count + 1))
}

filters=(:/a ::a/ :/a/b ':prefix=lib' ':[x=:/a/b,y=:/c]' ':exclude[::a/,::c/]' ':workspace=ws' :nop)
# a filter through which a push writes, and the path
pushed=(:/a ':[x=:/a/b,y=:/c]' ::a/ ':workspace=ws')
paths=(p x/p a/p x/q)
count=0
while [ "$count" -lt "$entries" ]; do
    : >"$work/input"
    filter=${filters[RANDOM % 8]}
    at=$((RANDOM % 4))
    case $((RANDOM % 18)) in
    0 | 1 | 2 | 3) run project $main "$filter" ;;
    4 | 5 | 6)
        commit $((commits + 1 + count)) "from $head
" "${dirs[RANDOM % 4]}/g$((RANDOM % 9))" "$count $RANDOM" >"$work/input"
        run import
        [ "$status" -eq 0 ] || fail "an import is refused: $(cat "$work/err")"
        head=$(cat "$work/out")
        head=${head#"$main" }
        ;;
    7 | 8 | 9)
        run project $main "${pushed[at]}"
        from=$(cat "$work/out")
        commit $((commits + 1 + count)) "from $from
" "${paths[at]}$((RANDOM % 9))" "$count $RANDOM" >"$work/input"
        run push $main "${pushed[at]}"
        [ "$status" -eq 0 ] || fail "a push is refused: $(cat "$work/err")"
        head=$(cat "$work/out")
        head=${head#* }
        ;;
    10) [ $((RANDOM % 4)) -ne 0 ] || run export $main "${filters[RANDOM % 3]}" ;;
    11)
        # a push that begins at an original commit
        commit "$count" "from $head
" p z >"$work/input"
        run push $main :/a
        ;;
    12)
        # a stream that is cut off
        printf 'commit %s\ncommitter A <a@x> 1 +0000\ndata 9\nc\n' $main >"$work/input"
        run import
        ;;
    13)
        commit "$count" '' a/f n >"$work/input"
        # a name is one of the stream alone
        "$proj" name $main :/a <"$work/input" >"$work/out" 2>"$work/err"
        status=$?
        note "name $main :/a"
        ;;
    14) run project refs/heads/none :/a ;;
    15)
        case $((RANDOM % 4)) in
        0) run project $main ':[:/a,:/a/b]' ;;
        1) run project $main ':/a[' ;;
        2) run rule $((RANDOM % 2 + 1)) ;;
        3)
            status=2
            note batch
            ;;
        esac
        ;;
    16)
        # a tag that may be there already, as it is or another one
        printf 'tag t%d\nfrom %s\ntagger A <a@x> %d +0000\ndata 0\n' $((RANDOM % 4)) $main $((RANDOM % 2)) \
            >"$work/input"
        if [ $((RANDOM % 2)) -eq 0 ]; then run import; else run import --force; fi
        ;;
    17) run tags $main "$filter" ;;
    esac
done

# ---- as one batch

cp "$work/first" "$work/store"
started=$(micros)
"$proj" "$work/store" batch <"$work/batch" >"$work/replies" 2>"$work/err" &
child=$!
peak=0
while kill -0 "$child" 2>/dev/null; do
    while read -r key value _; do
        [ "$key" != VmHWM: ] || peak=$value
    done 2>/dev/null <"/proc/$child/status"
    sleep 0.01
done
wait "$child"
status=$?
child=
span=$(($(micros) - started))
[ "$status" -eq 0 ] || fail "the batch ended with status $status: $(cat "$work/err")"
[ -s "$work/err" ] && fail 'the batch wrote to standard error'
cmp "$work/expected" "$work/replies" || fail 'the replies are not what single runs answered'
for filter in "${filters[@]}"; do
    [ "$("$proj" "$work/store" project $main "$filter")" = "$("$proj" "$work/single" project $main "$filter")" ] ||
        fail "$filter: the stores show different commits"
done
"$proj" "$work/store" export --tags $main :nop >"$work/out" &&
    "$proj" "$work/single" export --tags $main :nop >"$work/err" &&
    cmp "$work/out" "$work/err" || fail 'the stores have different histories'
printf 'batches: %d commands on %d commits are answered as single runs answer them, in %d ms with %d kB at most\n' \
    "$count" $((commits + 1)) $((span / 1000)) "$peak"

# ---- ended at random moments

# The commit that the last whole reply to an import or a push names, if there is one. A push's line has two names.
last_commit() {
    local key size text found=
    while read -r key _ && [ "$key" = status ] && read -r key size && [ "$key" = bytes ]; do
        # the output, and the LF behind it
        IFS= read -r -N "$size" text || [ "$size" -eq 0 ] || break
        IFS= read -r -N 1 key || break
        case $text in
        "$main "*) found=${text#"$main "} ;;
        ????????????????????????????????????????' '????????????????????????????????????????$'\n') found=${text#* } ;;
        esac
    done <"$work/replies"
    printf '%s' "${found%$'\n'}"
}

stops=0
for ((i = 0; i < wanted; i++)); do
    cp "$work/first" "$work/store"
    : >"$work/replies"
    "$proj" "$work/store" batch <"$work/batch" >"$work/replies" 2>"$work/err" &
    child=$!
    sleep "$(printf '%d.%06d' $((span * RANDOM / 32768 / 1000000)) $((span * RANDOM / 32768 % 1000000)))"
    kill -KILL "$child" 2>/dev/null
    { wait "$child"; } 2>/dev/null
    status=$?
    child=
    case $status in
    0) ;;
    137) stops=$((stops + 1)) ;;
    *) fail "a batch ended with status $status: $(cat "$work/err")" ;;
    esac
    seen=$(last_commit)
    printf 'reset refs/heads/seen\nfrom %s\n\n' "${seen:-$head0}" >"$work/input"
    "$proj" "$work/store" import <"$work/input" >"$work/out" 2>"$work/err" ||
        fail "a commit whose reply was read is not there, or the store does not load: $(cat "$work/err")"
done
printf 'batches: %d stops, each store loads and has what was replied\n' "$stops"
