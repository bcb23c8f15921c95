#!/usr/bin/env bash
# Prints the commit on a branch of a Git repository as a stream of one root commit with inline files:
#   examples/small-stream.sh REPOSITORY BRANCH
# The committer's line stands for the author too. Paths must need no quotes, and all files must be plain (mode 100644).
set -eu
cd "$1"
message=$(mktemp)
trap 'rm -f "$message"' EXIT
git cat-file commit "$2" | sed '1,/^$/d' >"$message"
printf 'commit refs/heads/%s\n' "$2"
git cat-file commit "$2" | sed -n '/^committer /{p;q}'
printf 'data %s\n' "$(wc -c <"$message")"
cat "$message"
git ls-tree -r -z --format='%(objectname) %(path)' "$2" | while IFS= read -r -d '' line; do
    printf 'M 100644 inline %s\ndata %s\n' "${line#* }" "$(git cat-file -s "${line%% *}")"
    git cat-file blob "${line%% *}"
done
