#!/usr/bin/env bash
# Lets two and six processes want one store at once: imports onto refs of their own, a batch beside imports, and pushes
# by Git through two filters (contrib/git-remote-proj). Of a store that another process has a call is told `store
# fault`, with status 24, and nothing else. Every change that was answered with status 0 must be there afterwards.
# `ROUNDS` is how often all of this is done with two processes and with six.
set -u
cd "$(dirname "$0")/.." || exit 1
label=two
. scripts/lib.sh
needs mktemp sleep cat rm seq tail grep wc
begin_reading
rounds=${ROUNDS:-2}
store=$work/store

# It is told in which round.
fail() {
    printf 'two: round %d, %d processes: %s\n' "$round" "$count" "$1"
    exit 1
}

# A commit that the round makes on a ref, upon the commit that the ref is known to be at.
commit() {
    printf 'commit refs/heads/%s\ncommitter A <a@x> %d +0000\ndata 2\nc\n' "$1" $((1700000000 + made))
    [ -z "${at[$1]-}" ] || printf 'from %s\n' "${at[$1]}"
    printf 'M 100644 inline %s/f\ndata %d\n%d\n' "$1" $((${#made} + 1)) "$made"
    made=$((made + 1))
}

# Runs the words on the store with the input that is there, and notes how it ended.
once() {
    local own=$1
    shift
    "$proj" "$store" "$@" >"$work/$own.out" 2>"$work/$own.err"
    printf '%d' "$?" >"$work/$own.status"
}

# The same again and again while another process has the store.
again() {
    local own=$1 tries
    for ((tries = 0; tries < 1000; tries++)); do
        once "$@" <"$work/$own.in"
        [ "$(cat "$work/$own.status")" = 24 ] || return
        sleep 0.01
    done
}

# How a process ended: with status 0, or refused as one that is told of another.
ended() {
    status=$(cat "$work/$1.status")
    case $status in
    0) [ ! -s "$work/$1.err" ] || fail "$1 ended with status 0 and a text: $(cat "$work/$1.err")" ;;
    24)
        [ ! -s "$work/$1.out" ] || fail "$1 was refused and printed something"
        [ "$(cat "$work/$1.err")" = 'store fault' ] || fail "$1 was refused by: $(cat "$work/$1.err")"
        refused=$((refused + 1))
        ;;
    *) fail "$1 ended with status $status: $(cat "$work/$1.err")" ;;
    esac
}

# The line that an import printed is of its ref, which is there from then on.
acknowledged() {
    local line
    line=$(tail -n 1 "$work/$1.out")
    case $line in
    "refs/heads/$1 "????????????????????????????????????????) at[$1]=${line#* } ;;
    *) fail "an import onto $1 printed: $line" ;;
    esac
    changes=$((changes + 1))
}

# The store loads, and each ref is where it was said to be.
all_there() {
    local ref lost=0
    for ref in "${!at[@]}"; do
        printf 'project refs/heads/%s :nop\nbytes 0\n\n' "$ref"
    done >"$work/asked"
    "$proj" "$store" batch <"$work/asked" >"$work/answers" 2>"$work/err" ||
        fail "$1: the store does not load: $(cat "$work/err")"
    for ref in "${at[@]}"; do
        grep -qxF "$ref" "$work/answers" || lost=$((lost + 1))
    done
    [ "$lost" -eq 0 ] || fail "$1: $lost of ${#at[@]} refs are not where an answer of status 0 said"
}

# Imports that get their input when all but one have ended, or after some seconds. So each wants the store while one
# has it, and only that one is done.
held_imports() {
    local own tries done=0
    rm -f "$work/go" "$work"/w*.status
    for own in $(seq "$count"); do
        commit "w$own" >"$work/w$own.in"
        {
            until [ -e "$work/go" ]; do sleep 0.02; done
            cat "$work/w$own.in" 2>/dev/null
        } | once "w$own" import &
    done
    for ((tries = 0; tries < 200; tries++)); do
        set -- "$work"/w*.status
        [ $# -lt $((count - 1)) ] || [ ! -s "$1" ] || break
        sleep 0.05
    done
    : >"$work/go"
    wait
    for own in $(seq "$count"); do
        ended "w$own"
        [ "$status" -ne 0 ] || { done=$((done + 1)) && acknowledged "w$own"; }
    done
    all_there 'imports at once'
    [ "$done" -eq 1 ] || fail "$done imports were done while another one had the store"
}

# Imports that call again where they are refused. Each is done.
patient_imports() {
    local own first=$1
    for own in $(seq "$first" "$count"); do
        commit "w$own" >"$work/w$own.in"
        again "w$own" import &
    done
}

patient_ended() {
    local own
    wait
    for own in $(seq "$1" "$count"); do
        ended "w$own"
        [ "$status" -eq 0 ] || fail "an import never had the store"
        acknowledged "w$own"
    done
}

# A batch of imports, each of a commit more, beside patient imports.
batch_beside() {
    local size line
    : >"$work/batch.in"
    : >"$work/entry"
    for _ in 1 2 3 4 5; do
        commit batch >>"$work/entry"
        # The rest of the stream stands upon this commit.
        at[batch]=
        size=$(wc -c <"$work/entry")
        { printf 'import\nbytes %d\n' "$size"; cat "$work/entry"; printf '\n'; } >>"$work/batch.in"
    done
    again batch batch &
    patient_imports 2
    patient_ended 2
    ended batch
    [ "$status" -eq 0 ] || fail 'a batch never had the store'
    [ "$(grep -c '^status 0$' "$work/batch.out")" -eq 5 ] || fail "a batch was answered: $(cat "$work/batch.out")"
    line=$(grep '^refs/heads/batch ' "$work/batch.out" | tail -n 1)
    at[batch]=${line#* }
    changes=$((changes + 5))
    all_there 'a batch beside imports'
}

# ---- pushes by Git

with_git() {
    command -v git >/dev/null
}

if with_git; then
    mkdir "$work/bin"
    ln -s "$(realpath "$proj")" "$work/bin/proj"
    ln -s "$(realpath "$proj_read")" "$work/bin/proj_read"
    ln -s "$PWD/contrib/git-remote-proj" "$work/bin/git-remote-proj"
    export PATH=$work/bin:$PATH
    own_settings
    export GIT_AUTHOR_NAME=A GIT_AUTHOR_EMAIL=a@x GIT_COMMITTER_NAME=A GIT_COMMITTER_EMAIL=a@x
fi
filters=(:/a :/b)

# The process with this number has a clone of what one of two filters shows.
clone_of() {
    [ -d "$work/clone$1" ] ||
        git clone -q "proj::$store#refs/heads/main#${filters[$1 % 2]}" "$work/clone$1" 2>"$work/err" ||
        fail "no clone: $(cat "$work/err")"
}

push_of() {
    git -C "$work/clone$1" push -q >"$work/clone$1.out" 2>&1
    printf '%d' "$?" >"$work/clone$1.status"
}

# Each clone pushes a commit of its own. Through each filter one is done, and the others are told to fetch first.
pushes() {
    local own won=(0 0)
    for own in $(seq "$count"); do
        clone_of "$own"
        git -C "$work/clone$own" pull -q 2>"$work/err" || fail "no pull: $(cat "$work/err")"
        printf '%d\n' "$made" >"$work/clone$own/from$own"
        made=$((made + 1))
        git -C "$work/clone$own" add -A && git -C "$work/clone$own" commit -q -m "$own"
    done
    for own in $(seq "$count"); do
        push_of "$own" &
    done
    wait
    for own in $(seq "$count"); do
        if [ "$(cat "$work/clone$own.status")" -eq 0 ]; then
            won[own % 2]=$((won[own % 2] + 1))
            changes=$((changes + 1))
            [ "$("$proj" "$store" project refs/heads/main "${filters[own % 2]}" 2>&1)" = \
                "$(git -C "$work/clone$own" rev-parse HEAD)" ] || fail 'a push that was done is not there'
        else
            grep -q 'fetch first' "$work/clone$own.out" || fail "a push was told: $(cat "$work/clone$own.out")"
            git -C "$work/clone$own" reset -q --hard '@{upstream}'
        fi
    done
    [ "${won[*]}" = '1 1' ] || fail "${won[*]} pushes were done through the two filters"
    # A push through the other filter moved the ref on: it is no longer where the import before said.
    at[main]=$("$proj" "$store" project refs/heads/main :nop 2>"$work/err") || fail "$(cat "$work/err")"
    all_there 'pushes at once'
}

declare -A at=()
made=0
changes=0
refused=0
round=0
count=1
# The store has a history before two processes want it.
for _ in $(seq 20); do
    { commit main; printf 'M 100644 inline a/f\ndata 0\n\nM 100644 inline b/f\ndata 0\n\n'; } >"$work/main.in"
    once main import <"$work/main.in"
    ended main
    [ "$status" -eq 0 ] || fail 'an import that is alone is refused'
    acknowledged main
done
for ((round = 1; round <= rounds; round++)); do
    for count in 2 6; do
        held_imports
        patient_imports 1
        patient_ended 1
        all_there 'imports that wait'
        batch_beside
        ! with_git || pushes
    done
done
printf 'two: %d rounds of two and six processes at once, %d changes and all of them there, %d refused\n' \
    "$rounds" "$changes" "$refused"
[ "$changes" -gt 0 ]
