#!/bin/sh
# Tries the mutants that the gate leaves out: those in `mutants` of these crates, or of all crates
# that have such a folder. Each has to be refused. Run it where such a crate changes; it needs rt,
# and 2 to 35 processor minutes a crate, beside the proof of the crates below it.
# Usage: checks/mutants.sh [CRATE]...
set -u

# shellcheck source=checks/common.sh
. "$(dirname "$0")/common.sh"
cd "$root" || exit 1

if [ $# -eq 0 ]; then
    for folder in crates/*/mutants; do
        crate=${folder%/mutants}
        set -- "$@" "${crate#crates/}"
    done
fi

# rt takes them from `must-fail`, so links stand there while it runs. Where a crate has mutants of
# the gate too, those are tried with them, unless they were tried before.
links=$work/links
trap 'xargs rm -f <"$links"; rm -rf "$work"' EXIT
: >"$links"
for crate in "$@"; do
    if [ ! -d "crates/$crate/mutants" ]; then
        echo "$check: $crate has no folder mutants" >&2
        exit 2
    fi
    if [ ! -e "crates/$crate/must-fail" ]; then
        ln -s mutants "crates/$crate/must-fail" || exit 1
        echo "crates/$crate/must-fail" >>"$links"
        continue
    fi
    for edit in "crates/$crate/mutants"/*.edit; do
        link=crates/$crate/must-fail/${edit##*/}
        ln -s "../mutants/${edit##*/}" "$link" || exit 1
        echo "$link" >>"$links"
    done
done
rt must-fail "$@"
