#!/usr/bin/env bash
# Times pushes of one commit to a part that contrib/proj-host keeps, from `git push` to the last hook, beside loading
# the store: a monorepo of 200 packages with 100 files each, and a history of commits that change one to four files of a
# package. The part is one package. Its words are the number of commits (5000), and how many more parts there are (0),
# each of another package, which the pushes don't change. Each line is the median of `ROUNDS` calls, or 9.
set -u
cd "$(dirname "$0")/.." || exit 1
label=host
. scripts/lib.sh
needs git mktemp awk sed sort flock readlink realpath ln mkdir wc
begin
proj_read=${PROJ_READ:-$PWD/crates/proj_read/out/proj_read}
[ -x "$proj_read" ] || fail 'the program proj_read is not built'
own_settings
commits=${1:-5000}
others=${2:-0}
rounds=${ROUNDS:-9}
mkdir "$work/bin"
ln -s "$(realpath "$proj")" "$work/bin/proj"
ln -s "$(realpath "$proj_read")" "$work/bin/proj_read"
ln -s "$PWD/contrib/proj-host" "$work/bin/proj-host"
export PATH=$work/bin:$PATH
export GIT_AUTHOR_NAME=A GIT_AUTHOR_EMAIL=a@x GIT_COMMITTER_NAME=A GIT_COMMITTER_EMAIL=a@x

# The history of the monorepo.
history() {
    awk -v commits="$commits" '
        function file(package, number, version,    text, n) {
            for (n = 1; n <= 12; n++) text = text "line " n " of file " number ", version " version "\n"
            printf "M 100644 inline packages/p%03d/src/f%d\ndata %d\n%s\n", package, number, length(text), text
        }
        BEGIN {
            for (i = 1; i <= commits; i++) {
                printf "commit refs/heads/main\nmark :%d\ncommitter A <a@x> %d +0000\n", i, 1700000000 + i
                printf "data 7\nchange\n"
                if (i > 1) {
                    printf "from :%d\n", i - 1
                    for (k = 0; k <= i % 4; k++) file(i * 7 % 200, (i * 13 + k * 29) % 100, i)
                } else for (k = 0; k < 20000; k++) file(k % 200, int(k / 200), 0)
            }
        }'
}

# Notes the processor time of words, in seconds, in a file of that name.
timed() {
    local TIMEFORMAT='%U %S' what=$1
    shift
    { time "$@" >"$work/out" 2>"$work/err" || fail "refused: $*: $(cat "$work/err")"; } 2>>"$work/$what.times"
}

median() {
    awk '{ print $1 + $2 }' "$work/$1.times" | sort -n | sed -n "$((rounds / 2 + 1))p"
}

git init -q --bare "$work/mono.git"
history | git -C "$work/mono.git" fast-import --quiet
proj-host init "$work/mono.git" "$work/store" >"$work/out" || fail 'init'
for ((n = 0; n <= others; n++)); do
    proj-host part "$work/mono.git" refs/heads/main ":/packages/p$(printf %03d "$n")" "$work/p$n.git" || fail 'part'
done
git clone -q "$work/p0.git" "$work/clone"
git clone -q --bare "$work/p0.git" "$work/plain.git"
printf '%d commits, %d files, %d parts, a journal of %d MB\n' "$(git -C "$work/mono.git" rev-list --count main)" \
    "$(git -C "$work/mono.git" ls-tree -r main | wc -l)" $((others + 1)) $(($(wc -c <"$work/store") / 1000000))
# They take turns, since a machine with other work is now faster and now slower.
for ((round = 1; round <= rounds; round++)); do
    printf '%d\n' "$round" >"$work/clone/src/new"
    git -C "$work/clone" add src/new && git -C "$work/clone" commit -q -m "$round" || fail 'no commit'
    timed load proj "$work/store" rule 1
    timed read proj_read "$work/store" refs
    timed plain git -C "$work/clone" push -q "$work/plain.git" main
    timed push git -C "$work/clone" push -q
done
load=$(median load)
read=$(median read)
plain=$(median plain)
push=$(median push)
proj-host status "$work/mono.git" >"$work/out" || fail "not in line: $(cat "$work/out")"
printf '%-52s %6.3f s of the processor\n' 'loading by proj (a rule that is set already)' "$load" \
    'loading by proj_read (refs)' "$read" 'a push of one commit, without hooks' "$plain" \
    'a push of one commit to the part' "$push"
awk -v load="$load" -v push="$push" -v plain="$plain" 'BEGIN {
    printf "the push is %.2f of loading twice and 100 ms; the hooks are %.2f of it\n", push / (2 * load + 0.1),
        (push - plain) / (2 * load + 0.1)
}'
