#!/bin/sh
# The tests of the program as it is, without proving anything: dist beside the sources, the
# launcher, the program as its users run it, the commands that the documents show, the queries of
# examples, its reports as other programs read them, and the program against a second reading of the
# language. Needs no rt, but a C compiler as cc and python3. Takes a few minutes. Each of these
# fails the whole.
# .ci/run, the gate, runs the same scripts after it has proved all, and more.
cd "$(dirname "$0")/.." || exit 1
status=0
checks/dist.sh --sums || status=1
for check in launcher program forms examples queries agree; do
    "checks/$check.sh" || status=1
done
exit "$status"
