# Sets `program` to the program of the code of this checkout, where the launcher doesn't know that
# dist/symple is that: reads all of the code, and proves and builds the program where it has to. The
# launcher sources this with
# - here, seen and loader, as it sets them;
# - the program's arguments.
# shellcheck shell=sh disable=SC2034,SC2154 # the launcher sets these, and uses `program`

built=$here/crates/symple/out/symple

# fail STATUS TEXT
fail() {
    echo "symple: $2" >&2
    exit "$1"
}

# Whether the digest of the code and the sum of the program are those that dist has. Then the file
# `seen` says so, for the next run.
look_whole() {
    new=$here/$seen.$$
    {
        mkdir -p "${new%/*}" &&
            code=$(sh "$here/dist/sources.sh" --read) &&
            echo "paths='crates.txt dist/symple dist/SHA256 dist/SOURCES $code'" >"$new" &&
            touch -d '1 second ago' "$new"
    } 2>/dev/null
    digest=$(sh "$here/dist/sources.sh" code) && grep -qx "$digest" "$here/dist/SOURCES" &&
        (CDPATH='' cd -- "$here/dist" && sha256sum -c SHA256) >/dev/null 2>&1
    is_same=$?
    if [ "$is_same" -eq 0 ]; then
        mv -f "$new" "$here/$seen" 2>/dev/null
    else
        rm -f "$new" 2>/dev/null
    fi
    return "$is_same"
}

# Whether the program that was built here is missing or older than its sources.
is_stale() {
    [ -x "$built" ] || return 0
    [ -n "$(find "$here/crates" "$here/crates.txt" \
        \( -name out -o -name mutants -o -name must-fail \) -prune -o -type f ! -name README.md \
        -newer "$built" -print | head -n 1)" ]
}

# Proves and builds the program. Only a run of it that ends well shows that all is proved.
build() {
    if [ -e "$here/dist/symple" ] && [ "${SYMPLE_PROVE-}" != 1 ]; then
        echo "symple: dist/symple isn't the program of this code, or isn't for this machine" >&2
    fi
    command -v rt >/dev/null ||
        fail 127 "the program has to be proved and built, and rt, which does that, isn't on PATH"
    echo "symple: proving and building the program and the crates below it;" \
        "from nothing that takes one to two processor hours" >&2
    # When the build begins: a source that is saved later, while it runs, is newer than the program.
    stamp=$(mktemp) || exit 126
    trap 'rm -f "$stamp"' EXIT
    trap 'exit 126' HUP INT TERM
    if ! (CDPATH='' cd -- "$here/crates/symple" && rt run -- make 1 1) </dev/null >/dev/null; then
        fail 126 "the program couldn't be proved and built"
    fi
    # Also a program that is kept, since its sources were only touched, has this time.
    touch -r "$stamp" "$built"
    rm -f "$stamp"
    trap - EXIT HUP INT TERM
}

if [ "${SYMPLE_PROVE-}" = 1 ]; then
    build
    program=$built
elif [ -x "$here/dist/symple" ] && [ -e "$loader" ] && look_whole; then
    program=$here/dist/symple
else
    if is_stale; then
        [ "${1-}" != --version ] || fail 127 "no program of this code is built yet"
        build
    fi
    program=$built
fi
