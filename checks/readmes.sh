#!/bin/sh
# Whether the examples in the crates' READMEs compile: each block of Rust in crates/NAME/README.md is
# put into checks/readmes/NAME.frame, which has the functions around them and one line `// README`
# for each block, in order. `{ .. }`, code of the reader's own, is tried as an empty block. One
# program of all examples is compiled by `rt try`, over copies of the crates, and those that need
# nothing but a runtime are run. Nothing is proved. It takes some minutes and needs rt, so it is run
# by hand; CONTRIBUTING.md says when.
set -u

# shellcheck source=checks/common.sh
. "$(dirname "$0")/common.sh"
cd "$root" || exit 1

# A program beside copies of the crates, without what was built.
tried=$work/repo/crates/readmes
mkdir -p "$tried/src"
cp HANDLES "$work/repo"
for crate in crates/*/; do
    crate=${crate%/}
    mkdir "$work/repo/$crate"
    for folder in src specs proofs; do
        if [ -d "$crate/$folder" ]; then
            cp -r "$crate/$folder" "$work/repo/$crate"
        fi
    done
done
cp crates/symple/src/disk.rt crates/symple/src/interrupts.rt crates/symple/src/progress.rt \
    crates/symple/src/stream.rt "$tried/src"

# The blocks of Rust of a README, put into its frame. Ends with 1 where there are more or fewer
# blocks than lines for them.
fill() {
    awk '
        function finish() {
            if (block != "" && is_rust)
                blocks[++count] = block
            block = ""
            is_rust = 0
        }
        FNR == NR && /^    / {
            if ($1 ~ /^(let|match|impl)$/)
                is_rust = 1
            gsub(/{ \.\. }/, "{}")
            block = block substr($0, 5) "\n"
            next
        }
        FNR == NR { finish(); next }
        !begun { finish(); begun = 1 }
        $1 == "//" && $2 == "README" { printf "%s", blocks[++taken]; next }
        { print }
        END { exit taken != count }
    ' "$1" "$2"
}

libraries='csv itoa'
{
    echo '//! The examples of the READMEs.'
    for module in disk interrupts progress stream; do
        echo "mod $module;"
    done
} >"$tried/src/main.rt"
for readme in crates/*/README.md; do
    crate=$(basename "$(dirname "$readme")")
    frame=checks/readmes/$crate.frame
    [ -e "$frame" ] || frame=/dev/null
    fill "$readme" "$frame" >"$work/filled"
    note $? "$readme: not as many blocks of Rust as lines for them in checks/readmes/$crate.frame"
    if [ -s "$work/filled" ]; then
        cp "$work/filled" "$tried/src/readme_$crate.rt"
        echo "mod readme_$crate;" >>"$tried/src/main.rt"
    fi
    case $crate in
        symple | *_tests | sym_bench) ;;
        *) libraries="$libraries $crate" ;;
    esac
done
printf '\nfn main(_rt: HostRuntime) {}\n' >>"$tried/src/main.rt"
{
    cat crates.txt
    echo "readmes: $libraries"
} >"$work/repo/crates.txt"

(cd "$tried" && rt try --test) >"$work/said" 2>&1
status=$?
if [ "$status" -ne 0 ]; then
    cat "$work/said" >&2
fi
note "$status" "an example doesn't compile, or fails"

counted passed failed
