# Writes which program is run, and from what it was built, and ends. The launcher sources this with
# - here and parts, as it sets them;
# - program, and built if it is the one that was built here.
# shellcheck shell=sh disable=SC2154 # the launcher sets these

digests=$parts/SOURCES
if [ "$program" = "$here/dist/symple" ]; then
    digests=$here/dist/SOURCES
elif [ "$program" = "${built-}" ]; then
    digests=$(sh "$here/dist/sources.sh" && rt version 2>/dev/null | sed 's/^/kit /')
    digests=${digests:-none}
fi
sum=$(sha256sum "$program") || exit 126
case $digests in
    */SOURCES) digests=$(cat "$digests") ;;
esac
version=${digests#code }
folder=$(CDPATH='' cd -P -- "${program%/*}" && pwd)
echo "symple ${version%"${version#????????????}"}"
echo "path $folder/symple"
echo "sha256 ${sum%% *}"
echo "$digests"
exit
