# Read by the scripts of this directory, which have set `here` to it: what they share. The directory
# `work` is for what is measured, and goes at the end.
# shellcheck shell=sh disable=SC2034,SC2154 # what the scripts use, and what they have set
root=$(dirname "$here")
timer=/usr/bin/time
turns=${TURNS:-3}

stop() {
    echo "bench/$(basename "$0"): $1" >&2
    exit 1
}

# needs TOOL..: each of them has to be there.
needs() {
    for tool in "$@"; do
        command -v "$tool" >/dev/null || stop "there is no $tool"
    done
}

# Sets `symple` to SYMPLE_PROGRAM, or else to the program that the launcher runs, which it builds
# first if it has to; the launcher's own few milliseconds are not measured.
find_symple() {
    symple=${SYMPLE_PROGRAM:-}
    [ -z "$symple" ] || return 0
    "$root/symple" make 1 1 >"$work/made" || stop "symple couldn't be built"
    symple=$("$root/symple" --version | sed -n 's/^path //p')
}

# Sets `sym_bench` to SYM_BENCH_PROGRAM, or else to the program of that crate, which is built with
# rt on PATH.
find_sym_bench() {
    sym_bench=${SYM_BENCH_PROGRAM:-}
    [ -z "$sym_bench" ] || return 0
    sym_bench=$root/crates/sym_bench/out/sym_bench
    (cd "$root/crates/sym_bench" && rt run -- explore modes 1 16) >"$work/built" 2>&1 ||
        stop "sym_bench couldn't be built: $(tail -n 1 "$work/built")"
}

work=$(mktemp -d)
trap 'rm -rf "$work"' EXIT
trap 'exit 1' HUP INT TERM
