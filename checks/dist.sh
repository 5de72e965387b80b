#!/bin/sh
# Whether dist/symple is the program of these sources:
# - dist/SOURCES has the digests that dist/sources.sh finds, and the line of `rt version`;
# - dist/SHA256 has the sum of dist/symple;
# - crates/symple/out/symple, which rt ci proves and builds from nothing, is the same byte for byte.
#
#     checks/dist.sh             compares all
#     checks/dist.sh --sums      without what rt makes and says
#     checks/dist.sh --write     makes dist of the program that is built here, which is proved and
#                                built first if it is missing or older than its sources
#
# The last line counts what passed and failed.
set -u

# shellcheck source=checks/common.sh
. "$(dirname "$0")/common.sh"
cd "$root" || exit 1
program=crates/symple/out/symple
renew="write it again by checks/dist.sh --write"

# The digests of the sources, and the line of the kit.
sources() {
    dist/sources.sh && rt version | sed 's/^/kit /'
}

# Whether the program that is built here is there and is no older than what it was built from.
is_built() {
    [ -x "$program" ] && [ -z "$(find crates crates.txt \
        \( -name out -o -name mutants -o -name must-fail \) -prune -o -type f ! -name README.md \
        -newer "$program" -print -quit)" ]
}

write() {
    if ! is_built; then
        SYMPLE_PROVE=1 ./symple --version >/dev/null || exit 1
    fi
    sources >"$work/SOURCES" && [ "$(wc -l <"$work/SOURCES")" -eq 3 ] || exit 1
    cp "$program" dist/symple.new && chmod 755 dist/symple.new &&
        mv -f dist/symple.new dist/symple &&
        (cd dist && sha256sum symple) >dist/SHA256 && cp "$work/SOURCES" dist/SOURCES || exit 1
    cat dist/SHA256 dist/SOURCES
}

# Without the line of the kit, where it isn't asked for.
compare_sums() {
    for file in symple SHA256 SOURCES; do
        [ -s "dist/$file" ]
        note $? "there is no dist/$file: $renew"
    done
    dist/sources.sh >"$work/digests"
    head -n 2 dist/SOURCES 2>/dev/null | cmp -s - "$work/digests"
    note $? "dist/SOURCES is of other sources: $renew"
    (cd dist && sha256sum -c SHA256) >/dev/null 2>&1
    note $? "dist/SHA256 isn't the sum of dist/symple: $renew"
}

compare_program() {
    sources >"$work/SOURCES" && cmp -s "$work/SOURCES" dist/SOURCES
    note $? "dist/SOURCES isn't of these sources and this toolchain: $renew"
    is_built
    note $? "$program isn't built of these sources: rt ci or SYMPLE_PROVE=1 ./symple does that"
    cmp "$program" dist/symple >&2
    note $? "dist/symple isn't what was proved and built here: $renew"
}

case ${1-} in
    --write) write && exit ;;
    --sums) compare_sums ;;
    '')
        compare_sums
        compare_program
        ;;
    *)
        echo "usage: checks/dist.sh [--sums | --write]" >&2
        exit 2
        ;;
esac

counted passed failed
