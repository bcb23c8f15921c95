#!/usr/bin/env bash
# Tries plants: wrong bodies of a crate, `crates/NAME/plants/*.edit`, each of which the prover must refuse. They are
# no part of the gate, which would take twice as long with them; whoever changes a crate tries its plants, and adds
# one where the change can go wrong in a new way. `bash scripts/plants.sh NAME ..` tries those of these crates; no
# name, those of all, which takes hours. Each crate takes one more proof of it and a check for each plant; libraries
# that were built in another checkout on this machine are taken from there. `RT_JOBS=1` keeps it to one check at a
# time. A plant has the form of a must-fail edit (`rt help`).
set -u
cd "$(dirname "$0")/.." || exit 1
names=("$@")
if [ "${#names[@]}" -eq 0 ]; then
    for folder in crates/*/plants; do
        [ ! -d "$folder" ] || names+=("$(basename "$(dirname "$folder")")")
    done
fi
for name in "${names[@]}"; do
    [ -d "crates/$name/plants" ] || { printf 'plants: no folder crates/%s/plants\n' "$name"; exit 1; }
done
work=$(mktemp -d) || exit 1
trap 'rm -rf "$work"' EXIT
# A copy without what was built, in which the plants stand as the crate's must-fail edits.
tar -c --exclude='crates/*/out' crates crates.txt HANDLES | tar -x -C "$work" || exit 1
for name in "${names[@]}"; do
    rm -rf "$work/crates/$name/must-fail"
    mv "$work/crates/$name/plants" "$work/crates/$name/must-fail" || exit 1
done
cd "$work" || exit 1
rt must-fail "${names[@]}"
status=$?
if [ "$status" -eq 0 ]; then
    printf 'plants: all were refused\n'
else
    printf 'plants: not all were refused\n'
fi
exit "$status"
