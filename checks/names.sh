#!/bin/sh
# Whether what the documents name is there:
# - each path in backticks, from the top of the repository, or in a crate's README from there;
# - each definition that is named with its file, `NAME` in `FILE`, which each entry of
#   docs/DEFINITIONS.md is;
# - each file and name in the table of questions of docs/ARCHITECTURE.md;
# - in the rows of docs/PROOFS.md on a crate, each call and its clauses, between `fn CALL` and its
#   body: (`CALL`: `CLAUSE`, `CLAUSE`); or a field of a record that a clause names, `CLAUSE.FIELD`;
# - in a crate's README, docs/ARCHITECTURE.md, docs/DECISIONS.md and CONTRIBUTING.md, each single
#   name in backticks, in the sources of some crate;
# - in docs/CALLS.md each public call with its clauses, by calls.py beside this file;
# - each file that a link leads to, and the heading there;
# - each text that a mutant changes, on one line of its file.
# The last line counts what was looked up and what is missing.
# shellcheck disable=SC2016 # the backticks are those of the documents
set -u

# shellcheck source=checks/common.sh
. "$(dirname "$0")/common.sh"
cd "$root" || exit 1

# What stands in backticks in a document, one a line, outside of its indented blocks.
quoted() {
    sed '/^    /d' "$1" | tr '\n' ' ' | grep -o '`[^`]*`' | tr -d '`' | sort -u
}

# The paragraphs and list entries of a document, each on one line.
entries() {
    awk '
        function finish() { if (entry != "") print entry; entry = "" }
        /^- / { finish(); entry = $0; next }
        /^ *$/ || /^#/ || /^\|/ { finish(); next }
        entry == "" { if (!/^    /) entry = $0; next }
        { sub(/^ +/, ""); entry = entry " " $0 }
        END { finish() }
    ' "$1"
}

# The paths of a document of the top, or of a crate's README, which may also begin at the crate.
check_paths() {
    begins='crates|docs|examples|bench|checks|\.ci'
    case $1 in
        crates/*) begins="$begins|src|specs|proofs|must-fail|mutants" ;;
    esac
    quoted "$1" | grep -E '^[A-Za-z0-9_./-]+$' | grep -E "^($begins)/" |
        grep -vE '(^|/)(NAME|out)(/|$)' >"$work/paths"
    while read -r path; do
        [ -e "$path" ] || [ -e "$(dirname "$1")/$path" ]
        note $? "$1: there is no $path"
    done <"$work/paths"
}

# Whether a source defines the name: an item, a definition that contracts use, or a lemma.
defines() {
    items='pub|ghost|data|record|fn|struct|enum|trait|const|type'
    grep -qE "(^|[^A-Za-z0-9_])($items) $1(\$|[^A-Za-z0-9_-])|^ *$1 :" "$2"
}

# Each definition that a document names with its file.
check_definitions() {
    entries "$1" | grep -oE '(`[A-Za-z0-9_:-]+`(,| and)? )+in `[^`]*/[^`]*`' >"$work/groups"
    while read -r group; do
        file=$(printf '%s\n' "$group" | sed 's/.* in `\(.*\)`/\1/')
        [ -e "$file" ] || file=$(dirname "$1")/$file
        for name in $(printf '%s\n' "${group% in *}" | grep -o '`[^`]*`' | tr -d '`'); do
            [ -e "$file" ] && defines "${name##*:}" "$file"
            note $? "$1: no definition of $name in $file"
        done
    done <"$work/groups"
}

# Each name of a table that names crates, their files and names: | .. | CRATE | `FILE`: `NAME`, .. |
# CRATE | `FILE`: `NAME`, .. |, the first of specs and the second of code.
check_questions() {
    awk -F'|' '
        function side(crate, text, folder, ending,    entry, entries, name, names, file) {
            gsub(/[` ]/, "", crate)
            if (crate != "symple")
                crate = "sym_" crate
            gsub(/[` ]/, "", text)
            for (entry = split(text, entries, ";"); entry > 0; entry--) {
                file = entries[entry]
                sub(/:.*/, "", file)
                sub(/^[^:]*:?/, "", entries[entry])
                file = "crates/" crate "/" folder "/" file ending
                print file
                for (name = split(entries[entry], names, ","); name > 0; name--)
                    print file, names[name]
            }
        }
        NF == 7 && $3 !~ /---/ && $3 !~ /Defined/ {
            side($3, $4, "specs", ".antt")
            side($5, $6, "src", ".rt")
        }
    ' "$1" | sort -u >"$work/questions"
    [ -s "$work/questions" ]
    note $? "$1: no table of questions"
    while read -r file name; do
        [ -e "$file" ] && { [ -z "$name" ] || defines "$name" "$file"; }
        note $? "$1: no $file with ${name:-this name}"
    done <"$work/questions"
}

# Each entry of the glossary has a definition with its file.
check_glossary() {
    entries "$1" | grep '^- ' | grep -vE '` in `crates/' >"$work/entries"
    while read -r entry; do
        note 1 "$1: no definition with its file: $entry"
    done <"$work/entries"
}

# The records of the specs with their fields, one field a line.
find crates/*/specs -name '*.antt' -exec awk '
    /^pub record / { record = $3; next }
    /^[^ ]/ { record = "" }
    record != "" && /^  pub [a-z_]+ :/ { print record, $2 }
' '{}' + | sort -u >"$work/fields"

# The clauses of the calls of a name in a crate: those between `fn NAME` and a line that begins the
# body or ends the declaration. After each clause, as CLAUSE.FIELD, the fields of the records that
# it names.
clauses_of() {
    find "crates/$1/src" -name '*.rt' -exec awk -v call="$2" '
        FNR == NR { fields[$1] = fields[$1] " " $2; next }
        $0 ~ "fn " call "($|[^A-Za-z0-9_])" { inside = 1; clause = "" }
        /^ *[{]}?$/ || /;$/ || (/[{]$/ && !/(ensures|requires) /) { inside = 0 }
        inside && /requires / { clause = "" }
        inside && match($0, /ensures [a-z_]+ [{]/) {
            clause = substr($0, RSTART + 8, RLENGTH - 10)
            print clause
        }
        inside && clause != "" {
            count = split($0, words, /[^A-Za-z]+/)
            for (word = 1; word <= count; word++) {
                named = split(fields[words[word]], names, " ")
                for (name = 1; name <= named; name++) print clause "." names[name]
            }
        }
    ' "$work/fields" '{}' +
}

# A row begins with the crate: - **`CRATE`**, or a link of it.
check_clauses() {
    entries "$1" | grep -E '^- \*\*\[?`sym' >"$work/entries"
    [ -s "$work/entries" ]
    note $? "$1: no row on a crate"
    while read -r entry; do
        crate=$(printf "%s\n" "$entry" | sed 's/^[^`]*`\([a-z_]*\)`.*/\1/')
        printf "%s\n" "$entry" |
            grep -oE '\(`[A-Za-z_:]+`(: `[a-z_.]+`(, `[a-z_.]+`)*)?\)' >"$work/groups"
        while read -r group; do
            call=$(printf "%s\n" "$group" | sed 's/^(`\([A-Za-z_:]*\)`.*/\1/')
            grep -rqE "fn ${call##*:}(\$|[^A-Za-z0-9_])" "crates/$crate/src"
            note $? "$1: $crate has no call $call"
            case $group in
                *': '*) clauses=$(printf "%s\n" "${group#*: }" | tr -d '`,)') ;;
                *) clauses= ;;
            esac
            clauses_of "$crate" "${call##*:}" >"$work/clauses"
            for clause in $clauses; do
                grep -qxF "$clause" "$work/clauses"
                note $? "$1: $call of $crate has no clause $clause"
            done
        done <"$work/groups"
    done <"$work/entries"
}

# All words of the sources, the crates' names, the handles, and the directories at the top and of a
# crate.
{
    find crates -name out -prune -o -type f \( -name '*.rt' -o -name '*.antt' \) -exec cat {} +
    cat crates.txt HANDLES symple checks/*.c
    ls . crates/sym_base
} | grep -oE '[A-Za-z_][A-Za-z0-9_]*' | sort -u >"$work/words"

check_words() {
    quoted "$1" | grep -E '^([A-Za-z_][A-Za-z0-9_]*::)*[A-Za-z_][A-Za-z0-9_]*$' |
        sed 's/.*:://' | sort -u >"$work/names"
    while read -r name; do
        grep -qx "$name" "$work/words"
        note $? "$1: no source has $name"
    done <"$work/names"
}

for document in README.md CONTRIBUTING.md bench/README.md docs/*.md crates/*/README.md; do
    check_paths "$document"
    check_definitions "$document"
done
check_glossary docs/DEFINITIONS.md
check_questions docs/ARCHITECTURE.md
check_clauses docs/PROOFS.md
for document in docs/ARCHITECTURE.md docs/DECISIONS.md CONTRIBUTING.md crates/*/README.md; do
    check_words "$document"
done

# Each text that a mutant changes is on one line of its file, so that the mutant can be tried.
check_mutants() {
    for edit in crates/*/must-fail/*.edit crates/*/mutants/*.edit; do
        crate=$(dirname "$(dirname "$edit")")
        file=
        while IFS= read -r line; do
            case $line in
                'file: '*) file=$crate/${line#file: } ;;
                'old: '*)
                    [ "$(grep -cF -e "${line#old: }" "$file")" = 1 ]
                    note $? "$edit: not on one line of $file: ${line#old: }"
                    ;;
            esac
        done <"$edit"
        [ -n "$file" ]
        note $? "$edit: it names no file"
    done
}
check_mutants

# Each link of the documents leads to a file, or to one of its headings.
check_links() {
    awk '
        # The name by which a heading is linked to.
        function anchor(heading) {
            sub(/^#+ +/, "", heading)
            heading = tolower(heading)
            gsub(/[^a-z0-9_ -]/, "", heading)
            gsub(/ /, "-", heading)
            return heading
        }
        FNR == 1 {
            folder = FILENAME
            sub(/[^\/]*$/, "", folder)
        }
        /^#+ / { print "anchor " FILENAME "#" anchor($0) }
        /^    / { next }
        {
            gsub(/`[^`]*`/, "")
            while (match($0, /\]\([^) ]+\)/)) {
                link = substr($0, RSTART + 2, RLENGTH - 3)
                $0 = substr($0, RSTART + RLENGTH)
                if (link ~ /^[a-z]+:\/\//)
                    continue
                link = link ~ /^#/ ? FILENAME link : folder link
                while (sub(/[^\/]+\/\.\.\//, "", link))
                    ;
                print "link " link
            }
        }
    ' "$@" | sort -u >"$work/linked"
    sed -n 's/^anchor //p' "$work/linked" >"$work/anchors"
    sed -n 's/^link //p' "$work/linked" >"$work/links"
    while read -r link; do
        case $link in
            *.md#*) grep -qxF "$link" "$work/anchors" ;;
            *) [ -e "$link" ] ;;
        esac
        note $? "a link leads to $link, which isn't there"
    done <"$work/links"
}
check_links README.md CONTRIBUTING.md docs/*.md bench/README.md dist/README.md share/README.md \
    share/templates/README.md examples/queries/*/README.md crates/*/README.md

python3 "$here/calls.py"
note $? "docs/CALLS.md: not the calls of the sources"

counted found missing
