#!/usr/bin/env bash
# Times `proj`'s import of streams into a new store beside `git fast-import` without compression and without deltas, in
# one run: seconds of each, and how many times faster `proj` is. A word picks one of the streams. It takes the program
# that `PROJ` names, or the built one.
set -e
cd "$(dirname "$0")/.." || exit 1
label=imports
. scripts/lib.sh
needs git mktemp awk date rm
begin
own_settings
room=$work

# a commit's lines before its changes
head='function head(n, from) {
    printf "commit refs/heads/main\nmark :%d\ncommitter A <a@x> %d +0000\ndata 2\nm\n", n, 1700000000 + n
    if (from) printf "from :%d\n", from
}
function file(path, text) { printf "M 100644 inline %s\ndata %d\n%s\n", path, length(text), text }'

stream() {
    case $1 in
    blobs) awk 'BEGIN { for (i = 0; i < 100000; i++) printf "blob\nmark :%d\ndata 12\nblob %07d\n", i + 1, i }' ;;
    commits) awk "$head"' BEGIN { for (n = 1; n <= 5000; n++) { head(n, n - 1)
        for (i = 0; i < 10; i++) { k = (n * 7 + i * 131) % 1000; file("d" k % 20 "/e" k % 10 "/f" k, n " " i) } print "" } }' ;;
    directories) awk "$head"' BEGIN { head(1)
        for (i = 0; i < 100000; i++) file(sprintf("d%02d/e%02d/f%06d", i / 2000, i / 50 % 40, i), i) }' ;;
    # Git looks through the whole directory for each file, so that a million of them take it hours: `million` is imported
    # by `proj` alone.
    files) awk "$head"' BEGIN { head(1); for (i = 0; i < 20000; i++) file(sprintf("f%07d", i), i % 1000) }' ;;
    million) awk "$head"' BEGIN { head(1); for (i = 0; i < 1000000; i++) file(sprintf("f%07d", i), i % 1000) }' ;;
    # directories beside one another with a file each, in order; `wide` has so many that it is imported by `proj` alone
    siblings | wide) awk -v n="$([ "$1" = wide ] && echo 200000 || echo 20000)" "$head"' BEGIN { head(1)
        for (i = 0; i < n; i++) file(sprintf("p%06d/f", i), i % 1000) }' ;;
    # of 20,000 directories of two files one file each is changed, and then removed
    sweep) awk "$head"' BEGIN { head(1); for (i = 0; i < 40000; i++) file(sprintf("p%05d/f%d", int(i / 2), i % 2), i); print ""
        head(2, 1); for (i = 0; i < 20000; i++) file(sprintf("p%05d/f0", i), "again"); print ""
        head(3, 2); for (i = 0; i < 20000; i++) printf "D p%05d/f0\n", i; print "" }' ;;
    deep) awk "$head"' BEGIN { p = "a"; for (i = 0; i < 126; i++) p = p "/a"
        for (n = 1; n <= 2000; n++) { head(n, n - 1); for (i = 0; i < 10; i++) file(p "/f" (n + i) % 50, n " " i); print "" } }' ;;
    renames) awk "$head"' BEGIN { head(1); for (i = 0; i < 1000; i++) file("a/f" i, i); print ""
        for (n = 2; n <= 20001; n++) { head(n, n - 1); print n % 2 ? "R b a" : "R a b"; print "" } }' ;;
    esac
}

seconds() {
    start=$(date +%s.%N)
    "$@" >/dev/null
    end=$(date +%s.%N)
    echo "$start $end" | awk '{ printf "%.2f", $2 - $1 }'
}

by_git() {
    rm -rf "$room/git"
    git init -q --bare "$room/git"
    git -C "$room/git" -c core.compression=0 -c pack.compression=0 -c fastimport.unpackLimit=0 \
        fast-import --quiet --depth=0 <"$room/stream"
}

here() {
    rm -f "$room/store"
    "$proj" "$room/store" import <"$room/stream"
}

for kind in ${1:-blobs commits directories files million siblings wide sweep deep renames}; do
    stream "$kind" >"$room/stream"
    git=0
    [ "$kind" = million ] || [ "$kind" = wide ] || git=$(seconds by_git)
    own=$(seconds here)
    echo "$kind $(wc -c <"$room/stream") $git $own" |
        awk '{ printf "%-12s %11d bytes: git %7.2f s, here %7.2f s, ratio %.1f\n", $1, $2, $3, $4, $3 / ($4 + 0.005) }'
done
