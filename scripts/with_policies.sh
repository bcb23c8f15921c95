#!/usr/bin/env bash
# Policies: what `as USER` answers for each user of a policy is what the command answers without it, or a denial with
# its rule. With a real sshd on the loopback address, where there is one, users come in by their keys alone.
set -u
cd "$(dirname "$0")/.." || exit 1
label=policies
. scripts/lib.sh
needs git mktemp cat sed wc cut cmp
begin
own_settings
store=$work/store
contrib=$PWD/contrib

# The stream of one commit on a ref: the ref, its parent or nothing, and lines of changes.
commit() {
    printf 'commit %s\ncommitter A <a@x> 1700000000 +0000\ndata 4\nmade\n' "$1"
    [ -z "$2" ] || printf 'from %s\n' "$2"
    printf '%s' "$3"
}

# The lines of a change that writes a file.
with_file() {
    printf 'M %s inline %s\ndata %d\n%s\n' "$1" "$2" "${#3}" "$3"
}

# Sets the policy to a text, as a file of this mode.
set_policy() {
    local from=
    [ -z "${has_policy:-}" ] || from='refs/proj/policy^0'
    has_policy=1
    commit refs/proj/policy "$from" "$(with_file "$1" access "$2")
" | "$proj" "$store" import >/dev/null || fail 'import refuses a policy'
}

# What `proj` says of the words behind the store, on both of its outputs, with its status.
said() {
    "$proj" "$store" "$@" </dev/null 2>&1
    printf 'status %d' "$?"
}

denied() { printf 'denied: rule %d\nstatus 31' "$1"; }

commit refs/heads/main '' "$(with_file 100644 lib/l one)
$(with_file 100644 docs/d two)
$(with_file 100644 docs/drafts/e three)
" | "$proj" "$store" import >/dev/null || fail 'import refuses the history'
outside=':/docs:exclude[::drafts/]'

# ---- without a policy

same 'no policy' "$(denied 0)" "$(said as ann project refs/heads/main :/lib)"
same 'no policy, and no such ref' "$(denied 0)" "$(said as ann project refs/heads/none :/lib)"

# ---- a policy for three users

rules='# lib
allow ann see refs/heads/* :/lib
allow ann push refs/heads/main :/lib
allow bob see refs/heads/main :/"lib"

deny bob see refs/heads/secret :/docs
allow bob see refs/heads/* :/docs
allow bob push refs/heads/main :/docs
allow carol see refs/heads/main '"$outside"'
deny * see refs/heads/main :nop'
set_policy 100644 "$rules"

# A user is told what the command tells without the user.
alike() {
    same "$*" "$(said "${@:2}")" "$(said as "$@")"
}
alike ann project refs/heads/main :/lib
alike ann export refs/heads/main :/lib
alike ann project refs/heads/main ':/"lib"'
alike bob project refs/heads/main :/lib
alike bob export refs/heads/main :/docs
alike carol project refs/heads/main "$outside"
alike carol export refs/heads/main "$outside"
alike ann project refs/heads/none :/lib
same 'another filter' "$(denied 0)" "$(said as ann project refs/heads/main :/lib/sub)"
same 'another act' "$(denied 0)" "$(said as bob push refs/heads/main :/lib)"
same 'another user' "$(denied 0)" "$(said as dave project refs/heads/main :/lib)"
same 'a user whose name begins alike' "$(denied 0)" "$(said as an project refs/heads/main :/lib)"
same 'a ref that isn'"'"'t there' "$(denied 0)" "$(said as carol project refs/heads/none "$outside")"
same 'the first rule' "$(denied 6)" "$(said as bob project refs/heads/secret :/docs)"
same 'everybody' "$(denied 10)" "$(said as carol export refs/heads/main :nop)"
same 'a filter that is none' "$(said project refs/heads/main :/)" "$(said as dave project refs/heads/main :/)"
for words in 'as * project refs/heads/main :/lib' 'as ann import refs/heads/main :/lib' 'as ann batch' \
    'as ann rule 1' 'as ann audit refs/heads/main :/lib l'; do
    # shellcheck disable=SC2086
    case $(set -f; said $words) in
    usage:*'status 2') right ;;
    *) wrong "$words: $(set -f; said $words)" ;;
    esac
done

# ---- a push

base=$("$proj" "$store" as ann project refs/heads/main :/lib)
commit refs/heads/main "$base" "$(with_file 100644 more four)
" >"$work/push"
cp "$store" "$work/before"
same 'a push that is denied' "$(denied 0)" "$("$proj" "$store" as bob push refs/heads/main :/lib <"$work/push" 2>&1; printf 'status %d' "$?")"
if cmp -s "$store" "$work/before"; then right; else wrong 'a denied push changes the store'; fi
cp "$store" "$work/other"
plain=$("$proj" "$work/other" push refs/heads/main :/lib <"$work/push")
same 'a push that is allowed' "$(printf '%s' "$plain" | cut -d ' ' -f 1)" "$("$proj" "$store" as ann push refs/heads/main :/lib <"$work/push")"
if cmp -s "$store" "$work/other"; then right; else wrong 'an allowed push leaves another store than the push'; fi
same 'the projection behind it' "${plain%% *}" "$("$proj" "$store" as ann project refs/heads/main :/lib)"

# ---- policies of other kinds

set_policy 100755 "$rules"
alike ann project refs/heads/main :/lib
set_policy 100644 "$(printf '%s\nallow * look refs/heads/* :/b' "$rules")"
same 'a bad line' "$(printf 'bad policy: line 11\nstatus 32')" "$(said as ann project refs/heads/main :/lib)"
same 'a bad line, before the rules' "$(printf 'bad policy: line 11\nstatus 32')" "$(said as nobody project refs/heads/none :/lib)"
set_policy 100644 'allow ann see refs/heads/main :[:/lib,:/lib]'
same 'a filter that is not sound' "$(printf 'bad policy: line 1\nstatus 32')" "$(said as ann project refs/heads/main :/lib)"
set_policy 100644 "$(printf '#%065535d' 0)"
same 'as long as may be' "$(denied 0)" "$(said as ann project refs/heads/main :/lib)"
set_policy 100644 "$(printf '#%065536d' 0)"
same 'too long' "$(printf 'bad policy: line 0\nstatus 32')" "$(said as ann project refs/heads/main :/lib)"
set_policy 120000 'allow ann see refs/heads/main :/lib'
same 'a link' "$(denied 0)" "$(said as ann project refs/heads/main :/lib)"
set_policy 100644 "$rules"

# ---- by ssh

sshd=$(command -v sshd || printf '/usr/sbin/sshd')
if [ ! -x "$sshd" ] || ! command -v ssh >/dev/null || ! command -v ssh-keygen >/dev/null; then
    printf '%s: by ssh not tried, for want of sshd, ssh or ssh-keygen\n' "$label"
    counted
    exit
fi
bin=$work/bin
mkdir "$bin"
cp "$proj" "$bin/proj"
cp "$contrib/proj-as" "$bin/proj-as"
for key in host ann bob; do
    ssh-keygen -q -t ed25519 -N '' -f "$work/$key" </dev/null || fail 'ssh-keygen makes no key'
done
for user in ann bob; do
    printf 'restrict,command="env PATH=%s:/usr/bin:/bin %s %s %s" %s\n' "$bin" "$bin/proj-as" "$store" "$user" \
        "$(cat "$work/$user.pub")"
done >"$work/keys"
cat >"$work/sshd_config" <<CONFIG
ListenAddress 127.0.0.1
HostKey $work/host
AuthorizedKeysFile $work/keys
PidFile none
StrictModes no
UsePAM no
PasswordAuthentication no
KbdInteractiveAuthentication no
PermitRootLogin forced-commands-only
LogLevel QUIET
CONFIG
[ "$(id -u)" != 0 ] || [ -d /run/sshd ] || mkdir -p /run/sshd
port=
for try in 1 2 3 4 5; do
    port=$((20000 + RANDOM % 20000))
    "$sshd" -D -e -f "$work/sshd_config" -p "$port" >"$work/sshd.log" 2>&1 &
    child=$!
    sleep 1
    kill -0 "$child" 2>/dev/null && break
    child=
done
by_ssh() {
    ssh -F none -q -p "$port" -i "$work/$1" -o BatchMode=yes -o IdentitiesOnly=yes -o StrictHostKeyChecking=no \
        -o UserKnownHostsFile="$work/known" "$(id -un)@127.0.0.1" "$2"
}
if [ -z "$child" ] || [ "$(by_ssh ann 'project refs/heads/main :/lib' </dev/null 2>/dev/null)" = '' ]; then
    printf '%s: by ssh not tried: no sshd takes a key here\n' "$label"
    counted
    exit
fi
same 'by ssh, project' "$(said project refs/heads/main :/lib)" "$(by_ssh ann 'project refs/heads/main :/lib' </dev/null; printf 'status %d' "$?")"
same 'by ssh, a filter with spaces' "$(said project refs/heads/main ':[ :/lib ]')" \
    "$(printf '%s\n' 'allow ann see refs/heads/main :[:/lib]' >"$work/text"; set_policy 100644 "$(cat "$work/text")
$rules"; by_ssh ann 'project refs/heads/main :[ :/lib ]' </dev/null; printf 'status %d' "$?")"
same 'by ssh, a denial' "$(denied 0)" "$(by_ssh bob 'push refs/heads/main :/lib' <"$work/push" 2>&1; printf 'status %d' "$?")"
git init -q "$work/clone"
by_ssh ann 'export refs/heads/main :/lib' </dev/null | git -C "$work/clone" fast-import --quiet || wrong 'by ssh, export'
same 'by ssh, a clone' "$("$proj" "$store" project refs/heads/main :/lib)" "$(git -C "$work/clone" rev-parse main)"
git -C "$work/clone" checkout -q main
printf 'five\n' >"$work/clone/five"
git -C "$work/clone" add five
git -C "$work/clone" -c user.name=Ann -c user.email=ann@x commit -q -m five
base=$(by_ssh ann 'project refs/heads/main :/lib' </dev/null)
pushed=$(git -C "$work/clone" fast-export --use-done-feature --reference-excluded-parents refs/heads/main "^$base" |
    by_ssh ann 'push refs/heads/main :/lib')
same 'by ssh, a push' "$(git -C "$work/clone" rev-parse main)" "$pushed"
for words in 'import' 'batch' 'project refs/heads/main' 'import --force x' 'export refs/heads/main :nop; id' ''; do
    by_ssh bob "$words" </dev/null >"$work/out" 2>"$work/err"
    case $? in
    2 | 9 | 31) if [ -s "$work/out" ]; then wrong "by ssh, '$words' prints something"; else right; fi ;;
    *) wrong "by ssh, '$words': status $?" ;;
    esac
done
kill "$child"
wait "$child" 2>/dev/null
child=
counted
