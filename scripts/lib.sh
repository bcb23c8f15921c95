# shellcheck shell=bash
# What the heads of these scripts and of some in bench/ have in common. A script goes to the top of the repository,
# says in `label` what its lines begin with, and reads this file; then `needs` looks for its tools, and `begin` for
# the program.
: "${label:?}"
passed=0
failed=0
child=

# Ends a script that can't be tried here, which is no failure: what is missing.
skip() {
    printf '%s: not tried, for want of %s\n' "$label" "$1"
    exit 0
}

fail() {
    printf '%s: %s\n' "$label" "$1"
    exit 1
}

# Skips the script where one of these tools is missing.
needs() {
    local tool
    for tool in "$@"; do
        command -v "$tool" >/dev/null || skip "$tool"
    done
}

# Skips the script where bash can't tell the time to `micros`.
needs_clock() {
    [ -n "${EPOCHREALTIME:-}" ] || skip 'a bash with EPOCHREALTIME'
}

# the time in microseconds
micros() {
    printf '%s' "${EPOCHREALTIME/[.,]/}"
}

# Finds a program in `found`: its crate, the file that somebody names for it or nothing, and a word with which the
# crate's own is run once where it has to be built.
find_program() {
    found=${2:-$PWD/crates/$1/out/$1}
    if [ ! -x "$found" ]; then
        (cd "crates/$1" && rt run -- "$3") </dev/null >/dev/null 2>&1
        [ -x "$found" ] || fail "the program $1 is not built"
    fi
}

# Finds the program `proj`: the one that `PROJ` names, or the built one, which is built where it isn't there. Makes
# the folder `work`. When the script ends, that folder goes, and so does the process `child`, if there is one.
begin() {
    find_program proj "${PROJ:-}" name
    proj=$found
    work=$(mktemp -d) || exit 1
    trap '[ -z "$child" ] || kill -KILL "$child" 2>/dev/null; rm -rf "$work"' EXIT
}

# Begins, and finds the program `proj_read` in the same way, by `PROJ_READ`.
begin_reading() {
    begin
    find_program proj_read "${PROJ_READ:-}" --version
    proj_read=$found
}

# Has Git read no settings but those of the file `config` in the folder `work`.
own_settings() {
    export GIT_CONFIG_NOSYSTEM=1 GIT_CONFIG_GLOBAL=$work/config HOME=$work
    git config --file "$work/config" safe.directory '*'
    git config --file "$work/config" init.defaultBranch main
}

# Whether this checkout has its whole history.
has_history() {
    [ -e .git ] && [ "$(git rev-parse --is-shallow-repository 2>/dev/null)" = false ]
}

right() {
    passed=$((passed + 1))
}

# what is wrong
wrong() {
    failed=$((failed + 1))
    printf '%s: %s\n' "$label" "$1"
}

# what is compared, what Git says, what is said here
same() {
    if [ -n "$2" ] && [ "$2" = "$3" ]; then right; else wrong "$1: $2, but here: $3"; fi
}

# Tells what was counted. Its status is the script's.
counted() {
    printf '%s: %d passed, %d failed\n' "$label" "$passed" "$failed"
    [ "$failed" -eq 0 ]
}
