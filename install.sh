#!/bin/sh
# Installs symple below a directory, and names each file that it writes:
#     ./install.sh PREFIX
#     ./install.sh --uninstall PREFIX    removes these files, and names each
# for example ./install.sh "$HOME/.local", with $HOME/.local/bin on PATH. They are the launcher,
# what it shows and the program itself, the manual page, the completions for bash, zsh and fish, and
# the files of Vim.
# The program is dist/symple, if it is that of the code here. Else it is proved and built first,
# with rt on PATH; where there is neither, the program that is built is taken as it is.
# Ends with 2 if it isn't given one directory, and with 1 if there is no program or a file can't be
# written or removed.
set -u

root=$(CDPATH='' cd -P "$(dirname "$0")" && pwd) || exit 1
# What the launcher runs and shows, below the prefix.
parts=libexec/symple

say() {
    echo "install.sh: $1" >&2
}

usage() {
    say "usage: ./install.sh [--uninstall] PREFIX"
    exit 2
}

# files COMMAND: calls it with each file here, its mode, and its place below the prefix.
files() {
    "$1" "$program" 755 $parts/symple
    for file in usage.txt version.sh script.awk csv.awk input.awk refused.sh explain.sh; do
        "$1" "$root/share/launcher/$file" 644 $parts/$file
    done
    "$1" "$sources" 644 $parts/SOURCES
    "$1" "$root/symple" 755 bin/symple
    "$1" "$root/share/symple-prepare" 755 bin/symple-prepare
    "$1" "$root/share/man/symple.1" 644 share/man/man1/symple.1
    "$1" "$root/share/man/symple-prepare.1" 644 share/man/man1/symple-prepare.1
    "$1" "$root/share/completions/symple.bash" 644 share/bash-completion/completions/symple
    "$1" "$root/share/completions/_symple" 644 share/zsh/site-functions/_symple
    "$1" "$root/share/completions/symple.fish" 644 share/fish/vendor_completions.d/symple.fish
    for folder in ftdetect ftplugin syntax; do
        "$1" "$root/share/vim/$folder/symple.vim" 644 share/vim/vimfiles/$folder/symple.vim
    done
}

# put FILE MODE PLACE: copies a file. A program that runs meanwhile keeps its old one.
put() {
    place=$prefix/$3
    if mkdir -p "$(dirname "$place")" && cp "$1" "$place.new" &&
        chmod "$2" "$place.new" && mv -f "$place.new" "$place"; then
        echo "$place"
    else
        say "$place can't be written"
        exit 1
    fi
}

# take FILE MODE PLACE: removes a file that was put there.
take() {
    place=$prefix/$3
    if [ -e "$place" ] || [ -L "$place" ]; then
        rm -f "$place" || exit 1
        echo "$place"
    fi
}

# Sets `program` to the program to install, and `sources` to a file that says of what it was built.
find_program() {
    if [ -x "$root/dist/symple" ] || command -v rt >/dev/null; then
        "$root/symple" run "$root/examples/counter.symple" "$root/examples/counter.csv" \
            >/dev/null || exit 1
        "$root/symple" --version >"$work/version" || exit 1
        program=$(sed -n 's/^path //p' "$work/version")
        sed '1,/^sha256 /d' "$work/version" >"$sources"
    else
        program=$root/crates/symple/out/symple
        if [ ! -x "$program" ]; then
            say "the program isn't built, and rt, which builds it, isn't on PATH"
            exit 1
        fi
        "$root/dist/sources.sh" >"$sources"
    fi
}

command=put
if [ "${1-}" = --uninstall ]; then
    command=take
    shift
fi
[ $# -eq 1 ] || usage
case $1 in
    '' | -*) usage ;;
esac
prefix=${1%/}

work=$(mktemp -d) || exit 1
trap 'rm -rf "$work"' EXIT
trap 'exit 1' HUP INT TERM
sources=$work/SOURCES
program=
if [ "$command" = put ]; then
    find_program
    files put
else
    files take
    rmdir "$prefix/$parts" 2>/dev/null
    exit 0
fi
