#!/usr/bin/env bash
# Puts the objects of a certificate into a Git repository, each by `git hash-object`, and prints their names:
#   examples/certificate-objects.sh CERTIFICATE REPOSITORY
set -eu
exec 3<"$1"
read -r line <&3
[ "$line" = 'audit 1' ] || { printf 'no certificate\n' >&2; exit 1; }
while read -r kind size <&3; do
    head -c "$size" <&3 | git -C "$2" hash-object -w -t "$kind" --stdin
    read -r line <&3
done
