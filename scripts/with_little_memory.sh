#!/usr/bin/env bash
# Runs each command, alone and within a batch, with less and less memory, from what is ample down to what the program
# needs to begin at all: each run must end as with ample memory, or with `out of memory`, and the store must load and
# show what it showed before or what the command makes of it. `STEPS` is how many sizes are tried for each command.
set -u
cd "$(dirname "$0")/.." || exit 1
label=memory
. scripts/lib.sh
needs mktemp cp cmp cat rm sed wc
(ulimit -v 4000000) 2>/dev/null || skip 'ulimit -v'
begin
steps=${STEPS:-4}
main=refs/heads/main

# a commit with this message, upon the parent's line or nothing, that writes the content into a file
commit() {
    printf 'commit %s\ncommitter A <a@x> 1700000000 +0000\ndata %d\n%s%s' $main ${#1} "$1" "$2"
    printf 'M 100644 inline %s\ndata %d\n%s\n' "$3" ${#4} "$4"
}

# an annotated tag of the ref's commit, with this message
tag() {
    printf 'tag %s\nfrom %s\ntagger A <a@x> 1700000000 +0000\ndata %d\n%s\n' "$1" $main ${#2} "$2"
}

# many commits and tags, so that what is held grows while they are read
for ((i = 0; i < 400; i++)); do
    commit "c$i" '' "a/d$((i % 40))/f$i" "$i $i $i"
    tag "t$i" "$i"
done >"$work/first"
for ((i = 0; i < 400; i += 2)); do tag "t$i" "$i, moved"; done >"$work/moved"
for ((i = 0; i < 400; i += 2)); do tag "u$i" "$i"; done >"$work/tags"
"$proj" "$work/store" import <"$work/first" >"$work/out" || fail 'the history is refused'
read -r _ head <"$work/out"
shown=$("$proj" "$work/store" project $main :/a) || fail 'the history is not shown'
commit side "from $head
" a/side s | sed "1s|$main|refs/heads/side|" >"$work/side"
"$proj" "$work/store" import <"$work/side" >"$work/out" || fail 'a branch is refused'
side=$("$proj" "$work/store" project refs/heads/side :/a) || fail 'a branch is not shown'
commit merge "from $shown
merge $side
" n w >"$work/merge"
commit next "from $head
" b/h z >"$work/next"
for ((i = 0; i < 400; i++)); do commit "n$i" "$([ "$i" -ne 0 ] || printf 'from %s\n' "$head") 
" "b/d$((i % 40))/f$i" "$i"; done | sed 's/ $//' >"$work/more"
commit push "from $shown
" n w >"$work/push"
commit root '' c/f r >"$work/root"
: >"$work/none"

# an entry of a batch
entry() {
    printf '%s\nbytes %d\n' "$1" "$(wc -c <"$2")"
    cat "$2"
    printf '\n'
}

{
    entry import "$work/next"
    entry "project $main :/a" "$work/none"
    entry "push $main :/a" "$work/push"
    entry "export $main :/a" "$work/none"
    entry import "$work/tags"
    entry "tags $main :/a" "$work/none"
    entry import "$work/root"
    entry "rule 2" "$work/none"
    entry "name $main :/a" "$work/first"
} >"$work/batch"

# what a store shows
state() {
    "$proj" "$1" export --tags $main :nop
}

# Runs the words on a copy of the store, with so many KiB of address space.
run() {
    local size=$1
    shift
    cp "$work/store" "$work/copy"
    (
        ulimit -v "$size"
        "$proj" "$@" <"$input" >"$work/out" 2>"$work/err"
    ) 2>/dev/null
    status=$?
}

state "$work/store" >"$work/before" || fail 'the store does not load'
runs=0
refused=0
# Tries the words, of which COPY stands for the store, with the input.
try() {
    input=$1
    shift
    local words=("${@/COPY/$work/copy}") low=4000 high=4000000 size step
    run $high "${words[@]}"
    [ "$status" -eq 0 ] || [ "$status" -eq 12 ] || [ "$status" -eq 29 ] || fail "$*: status $status with ample memory"
    local ample=$status
    cp "$work/out" "$work/wanted"
    state "$work/copy" >"$work/after" || fail "$*: the store does not load"
    # the least with which it ends so
    local least=$low most=$high
    while [ $((most - least)) -gt 64 ]; do
        size=$(((least + most) / 2))
        run "$size" "${words[@]}"
        if [ "$status" -eq "$ample" ]; then most=$size; else least=$size; fi
    done
    step=$((most / 2 / steps))
    [ "$step" -gt 0 ] || step=1
    for ((size = most + step; size > low && size > most / 3; size -= step)); do
        run "$size" "${words[@]}"
        # The system may refuse to begin a program that doesn't fit: that says nothing of it.
        [ "$status" -lt 126 ] || [ -s "$work/err" ] || [ -s "$work/out" ] || continue
        case $status in
        "$ample") cmp -s "$work/out" "$work/wanted" || fail "$*: another output with $size KiB" ;;
        1) refused=$((refused + 1)) ;;
        127) continue ;;
        *) fail "$*: status $status with $size KiB: $(cat "$work/err")" ;;
        esac
        runs=$((runs + 1))
        state "$work/copy" >"$work/now" || fail "$*: the store does not load after a run with $size KiB"
        [ "${words[0]}" != "$work/copy" ] || [ "${words[1]}" = batch ] || cmp -s "$work/now" "$work/before" ||
            cmp -s "$work/now" "$work/after" || fail "$*: another state with $size KiB"
    done
}

try "$work/next" COPY import
try "$work/more" COPY import
try "$work/root" COPY import
try "$work/root" COPY import --force
try "$work/tags" COPY import
try "$work/moved" COPY import
try "$work/moved" COPY import --force
try "$work/none" COPY project $main ':[x=:/a,y=:/b]'
try "$work/none" COPY export $main ::a/
try "$work/none" COPY export --tags $main ::a/
try "$work/none" COPY tags $main ::a/
try "$work/push" COPY push $main :/a
try "$work/merge" COPY push --merges $main :/a
try "$work/none" COPY rule 2
try "$work/batch" COPY batch
try "$work/first" name $main :/a
try "$work/none" COPY audit $main :/a d1/f1
"$proj" "$work/store" audit $main :/a d1/f1 >"$work/certificate" || fail 'no certificate is written'
try "$work/certificate" verify "$head" :/a d1/f1
try "$work/none" trial 300
printf 'memory: %d runs, %d of them without enough, and each store loads with the state before or after\n' \
    "$runs" "$refused"
