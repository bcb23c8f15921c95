#!/usr/bin/env bash
# Imports commit upon commit into one store, each by a process of its own, and ends most of these processes by SIGKILL
# at a random moment. After each the store must load, and have every commit whose line was printed and at most one
# more. What it must show is made in a second store, into which the same history is imported at once. `STOPS` is how
# many processes are ended.
set -u
cd "$(dirname "$0")/.." || exit 1
label=stops
. scripts/lib.sh
needs mktemp sleep cat rm
needs_clock
begin
wanted=${STOPS:-50}
# Building the program takes nothing of its time.
SECONDS=0

# It is told how far this was.
fail() {
    printf 'stops: %s, after %d stops and %d commits: %s\n' "$1" "$stops" "$commits" "$(cat "$work/err")"
    exit 1
}

# the commit with this number, and the line of its parent or nothing
commit() {
    printf 'commit refs/heads/main\ncommitter A <a@x> %d +0000\ndata 2\nc\n%s' $((1700000000 + $1)) "$2"
    printf 'M 100644 inline a/%d\ndata %d\n%d\n' $(($1 % 10)) $((${#1} + 1)) "$1"
}

# the name of what the store of that path shows
shown() {
    "$proj" "$1" project refs/heads/main :/a 2>"$work/err"
}

# Imports the stream into the store. The process is ended after so many microseconds.
import_until() {
    # A process that is ended before it opens its output must not leave the line of the one before it there.
    : >"$work/out"
    "$proj" "$work/store" import <"$work/stream" >"$work/out" 2>"$work/err" &
    child=$!
    sleep "$(printf '0.%06d' "$1")"
    kill -KILL "$child" 2>/dev/null
    { wait "$child"; } 2>/dev/null
    status=$?
    child=
}

stops=0
landed=0
commits=0
head=
now=
: >"$work/history"
while [ "$stops" -lt "$wanted" ] && [ "$commits" -lt 600 ] && [ "$SECONDS" -lt 50 ]; do
    # the history with one commit more, and what it must show
    commit "$commits" '' >>"$work/history"
    rm -f "$work/whole"
    started=$(micros)
    line=$("$proj" "$work/whole" import <"$work/history" 2>"$work/err") || fail 'the history is refused'
    span=$(($(micros) - started))
    next=$(shown "$work/whole") || fail 'the history is not shown'
    commit "$commits" "${head:+from $head
}" >"$work/stream"
    while :; do
        # The first import makes the store and isn't ended: a stop while a store is made is covered by no promise.
        if [ "$commits" -eq 0 ]; then
            "$proj" "$work/store" import <"$work/stream" >"$work/out" 2>"$work/err"
            status=$?
        else
            import_until $((RANDOM * span / 32768))
        fi
        seen=$(shown "$work/store") || fail 'the store does not load'
        case $status in
        0) [ "$(cat "$work/out")" = "$line" ] || fail 'an import did not print its line' ;;
        137) stops=$((stops + 1)) ;;
        *) fail "an import ended with status $status" ;;
        esac
        if [ "$seen" = "$next" ]; then
            [ "$status" -eq 0 ] || landed=$((landed + 1))
            break
        fi
        [ "$status" -ne 0 ] && [ ! -s "$work/out" ] || fail 'a commit whose line was printed is not there'
        [ "$seen" = "$now" ] || fail "the store shows $seen and not $now or $next"
        [ "$stops" -lt "$wanted" ] && [ "$SECONDS" -lt 50 ] || break
    done
    [ "$seen" = "$next" ] || break
    commits=$((commits + 1))
    head=${line#refs/heads/main }
    now=$next
done
printf 'stops: %d stops, %d of them with their commit, and %d commits, none lost\n' "$stops" "$landed" "$commits"
[ "$stops" -gt 0 ]
