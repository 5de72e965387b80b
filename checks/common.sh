# What the checks of this folder share; each of them sources it with `.`, and then has
# - here and root: this folder, and the top of the repository;
# - work: a folder of its own, which is removed at the end. It is in /tmp, since the path of a
#   preloaded library can have no blank and no colon;
# - program, once find_program is called;
# - the functions below.
# shellcheck shell=sh disable=SC2034 # the checks use what is set here

here=$(CDPATH='' cd -P "$(dirname "$0")" && pwd)
root=$(dirname "$here")
check=checks/$(basename "$0")

work=$(TMPDIR=/tmp mktemp -d) || exit 1
trap 'rm -rf "$work"' EXIT
trap 'exit 1' HUP INT TERM

out=$work/out
passed=0
failed=0

# The checks are of the program that is there, and of what it writes itself.
unset SYMPLE_EXPLAIN SYMPLE_PROVE

# Sets `program` to SYMPLE_PROGRAM, or else to the program that the launcher runs, which it builds
# first where it has to, so that no check sees what a build says.
find_program() {
    program=${SYMPLE_PROGRAM-}
    if [ -z "$program" ]; then
        "$root/symple" run "$root/examples/counter.symple" "$root/examples/counter.csv" \
            >/dev/null || exit 1
        program=$("$root/symple" --version | sed -n 's/^path //p')
    fi
}

# note STATUS TEXT: counts what passed, or what failed and says what it was.
note() {
    if [ "$1" -eq 0 ]; then
        passed=$((passed + 1))
    else
        failed=$((failed + 1))
        echo "$check: $2" >&2
    fi
}

# skipped TEXT: says what isn't tried.
skipped() {
    echo "$check: skipped: $1"
}

# run COMMAND..: the command with empty files for what it writes, its report into `out`. Its status
# is `status`.
run() {
    : >"$work/out"
    : >"$work/err"
    "$@" >"$out" 2>"$work/err"
    status=$?
}

# counted PASSED FAILED: writes the last line, which counts what passed and what failed in these
# words. It succeeds if nothing failed.
counted() {
    echo "$check: $passed $1, $failed $2"
    [ "$failed" -eq 0 ]
}
