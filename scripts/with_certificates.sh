#!/usr/bin/env bash
# Certificates beside real Git. What `verify` says of each path of several filters is what `git ls-tree` says of the
# projection that `export` gives to Git; the objects of a certificate have the names that `git hash-object` gives them,
# and from these objects alone Git finds the path; each front of a certificate is refused; and a text with a million
# objects, or with sizes that no memory has, is answered exactly. `LARGE=1` tries texts of 2^29 bytes too, in little
# more memory than they have.
set -u
cd "$(dirname "$0")/.." || exit 1
label=certificates
. scripts/lib.sh
needs git mktemp cat cp head tail yes sed wc tr cut
begin
own_settings
store=$work/store

cat >"$work/history" <<'FI'
blob
mark :1
data 6
hello
commit refs/heads/main
committer A <a@x> 1700000000 +0000
data 4
one
M 100644 :1 a/f
M 100755 :1 a/run
M 120000 inline a/link
data 1
f
M 160000 6a27ff6de5d45a65cc66723c6ae6227ea6004aa6 a/module
M 100644 inline a/deep/er/g
data 2
g
M 100644 inline b/z
data 2
z
commit refs/heads/main
committer A <a@x> 1700000001 +0000
data 4
two
M 100644 inline ws/workspace.josh
data 27
tools = :/a
docs/one = :/b

M 100644 inline ws/own
data 4
own
FI
git init -q --bare "$work/mono.git"
git -C "$work/mono.git" fast-import --quiet <"$work/history" || fail 'git fast-import refuses the history'
"$proj" "$store" import <"$work/history" >/dev/null || fail 'import refuses the history'
head=$(git -C "$work/mono.git" rev-parse main)

# What `verify` says of a path, by a certificate that is written for it.
said() {
    "$proj" "$store" audit refs/heads/main "$1" "$2" >"$work/certificate" || return
    "$proj" verify "$head" "$1" "$2" <"$work/certificate"
}

# ---- each path of a projection

for filter in :nop :/a :/a/deep :prefix=x :/a:prefix=lib/x :workspace=ws ':[p=:/a,q=:/b]' ::a/f; do
    shown=$work/shown.git
    rm -rf "$shown"
    git init -q --bare "$shown"
    "$proj" "$store" export refs/heads/main "$filter" | git -C "$shown" fast-import --quiet || fail "export $filter"
    git -C "$shown" ls-tree -r --format='%(objectmode) %(objectname) %(path)' main >"$work/list"
    [ -s "$work/list" ] || fail "$filter shows nothing"
    while read -r mode name path; do
        same "$filter $path" "$mode $name" "$(said "$filter" "$path")"
    done <"$work/list"
    # Git lists modules among the directories, too.
    git -C "$shown" ls-tree -rd --format='%(objecttype) %(path)' main >"$work/directories"
    while read -r type path; do
        [ "$type" != tree ] || same "$filter $path, a directory" absent "$(said "$filter" "$path")"
    done <"$work/directories"
    for path in no-such no/such "$(head -n 1 "$work/list" | cut -d ' ' -f 3)/below"; do
        same "$filter $path" absent "$(said "$filter" "$path")"
    done
done

# ---- the objects, by Git

said :workspace=ws tools/deep/er/g >/dev/null
git init -q --bare "$work/objects.git"
bash examples/certificate-objects.sh "$work/certificate" "$work/objects.git" >"$work/names"
same 'the commit' "$head" "$(head -n 1 "$work/names")"
same 'the path, by the objects alone' "$(git -C "$work/mono.git" rev-parse "main:a/deep/er/g")" \
    "$(git -C "$work/objects.git" rev-parse "$head:a/deep/er/g")"
same "the workspace's file" "$(git -C "$work/mono.git" cat-file blob main:ws/workspace.josh | tr -d '\0')" \
    "$(git -C "$work/objects.git" cat-file blob "$head:ws/workspace.josh" | tr -d '\0')"

# ---- each front

said :/a f >/dev/null
cp "$work/certificate" "$work/whole"
size=$(wc -c <"$work/whole")
for ((n = 0; n < size; n++)); do
    head -c "$n" "$work/whole" | "$proj" verify "$head" :/a f >"$work/out" 2>"$work/err"
    status=$?
    case $status in
    3 | 30) if [ -s "$work/out" ]; then wrong "a front of $n bytes: something is said"; else right; fi ;;
    *) wrong "a front of $n bytes: status $status" ;;
    esac
done

# ---- odd texts

# What `verify` says of the text in the file `odd`, with its status.
judged() {
    "$proj" verify "$head" :/a f <"$work/odd" 2>&1
    printf 'status %d' "$?"
}
answer=$(printf '%s\nstatus 0' "$("$proj" verify "$head" :/a f <"$work/whole")")
rest() { tail -c "+9" "$work/whole"; }

# Each line of `yes` is one of an object, and the end of the argument the LF behind its bytes.
{ printf 'audit 1\n'; yes $'blob 0\n' | head -n 2000000; rest; } >"$work/odd"
same 'a million empty blobs before it' "$answer" "$(judged)"
for digits in 18446744073709551616 18446744073709551629 99999999999999999999; do
    { printf 'audit 1\nblob %s\n' "$digits"; rest; } >"$work/odd"
    same "a size of $digits" "$(printf 'syntax at 8\nstatus 3')" "$(judged)"
done
{ printf 'audit 1\nblob 000000000000000000000\n\n'; rest; } >"$work/odd"
same 'a size of 21 digits' "$(printf 'syntax at 8\nstatus 3')" "$(judged)"
# The first needed tree's bytes under another kind, and the commit's with another message, stand before the true ones.
{ printf 'audit 1\n'; rest | sed 's/^tree /blob /'; rest | sed 's/^one$/two/;s/^two$/one/'; rest; } >"$work/odd"
same 'objects of other kinds and contents before it' "$answer" "$(judged)"
{ printf 'audit 1\n'; rest | sed 's/^tree /blob /'; } >"$work/odd"
case $(judged) in
    'not proved: '*'status 30') right ;;
    *) wrong "trees that are called blobs: $(judged)" ;;
esac

# ---- large texts

if [ "${LARGE:-0}" != 0 ]; then
    limit=536870912
    # one blob that makes the text exactly as long as it may be, before the needed objects
    body=$((limit - 8 - 15 - 1 - size + 8))
    { printf 'audit 1\nblob %d\n' "$body"; head -c "$body" /dev/zero; printf '\n'; rest; } >"$work/odd"
    [ "$(wc -c <"$work/odd")" -eq "$limit" ] || fail "a large text of $(wc -c <"$work/odd") bytes"
    same 'a blob up to 2^29 bytes' "$answer" "$( (ulimit -v $((limit / 1024 * 13 / 10)) && judged))"
    printf 'x' >>"$work/odd"
    same 'one byte more' "$(printf 'limit: input\nstatus 20')" "$(judged)"
fi

counted
