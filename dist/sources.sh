#!/bin/sh
# Writes the digests of what the program is built from, as dist/SOURCES has them:
# - code: the code, with its contracts, of the program and the crates below it, src, and their lines
#   of crates.txt: what it is compiled from;
# - proofs: the definitions and the proofs of these crates, specs and proofs.
# What the build doesn't read is left out: READMEs, mutants, crates of tests.
#
#     dist/sources.sh          both lines
#     dist/sources.sh code     the line of the code alone
#     dist/sources.sh --read   the directories that the line of the code covers, on one line
set -u

root=$(CDPATH='' cd -P -- "$(dirname "$0")/.." && pwd) || exit 1
cd -- "$root" || exit 1
LC_ALL=C
export LC_ALL

# The lines of crates.txt of the program and of each crate that it stands on, in order of names.
rows() {
    awk '
        { sub(/#.*/, "") }
        /:/ {
            name = $1
            sub(/:.*/, "", name)
            row[name] = $0
        }
        END {
            seen["symple"] = 1
            order[count = 1] = "symple"
            for (at = 1; at <= count; at++) {
                many = split(row[order[at]], words)
                for (i = 2; i <= many; i++)
                    if ((words[i] in row) && !(words[i] in seen)) {
                        seen[words[i]] = 1
                        order[++count] = words[i]
                    }
            }
            for (at = 1; at <= count; at++)
                print row[order[at]]
        }
    ' crates.txt | sort
}

# folders NAME..: those of these names that the crates have.
folders() {
    rows | while read -r crate _; do
        for folder do
            folder=crates/${crate%:}/$folder
            [ ! -d "$folder" ] || echo "$folder"
        done
    done
}

# The sums of the files of these folders, each with its name.
sums() {
    # shellcheck disable=SC2046 # names of crates have no blanks
    find $(folders "$@") -type f \( -name '*.rt' -o -name '*.antt' \) -print0 | sort -z |
        xargs -0 sha256sum
}

# digest NAME: the line of what comes on standard input.
digest() {
    sum=$(sha256sum) && echo "$1 ${sum%% *}"
}

case ${1-} in
    --read) folders src | tr '\n' ' ' ;;
    code) { rows && sums src; } | digest code ;;
    '')
        { rows && sums src; } | digest code
        sums specs proofs | digest proofs
        ;;
    *)
        echo "usage: dist/sources.sh [code | --read]" >&2
        exit 2
        ;;
esac
