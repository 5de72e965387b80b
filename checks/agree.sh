#!/bin/sh
# Compares the program with a second, independent reading of docs/LANGUAGE.md, checks/reference.py,
# over random scripts and logs, and its runs over chunks, limits and workers with each other, with
# reports on the same files mapped apart, and with what runs that are watched tell:
#
#     checks/agree.sh [CASES [SEED]]
#
# The gate takes 60 cases of seed 1; by hand 2,000 of another one are usual. Needs python3.
# SYMPLE_PROGRAM names another program than that of this repository. The last line counts what
# passed and failed.
set -u

# shellcheck source=checks/common.sh
. "$(dirname "$0")/common.sh"
find_program
PYTHONDONTWRITEBYTECODE=1 python3 "$here/agree.py" "$program" "${1:-60}" "${2:-1}"
