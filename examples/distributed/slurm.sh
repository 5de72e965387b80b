#!/bin/sh
# The report on a log in parts by Slurm. An array of jobs counts the records of each part, one job
# adds the counts up, an array summarises each part, and a last job writes the file `report` on all
# of them. Each waits for the one before it. Run it in a directory that all nodes see, with the parts
# in it. Their names have no blanks.
#
#     slurm.sh COUNT SCRIPT PART...
#
# COUNT counts records, as count.symple does. SYMPLE names the program; by default it is symple.
# Ends with 0 when the report is there, and with another status if a job failed.
# shellcheck disable=SC2016 # the jobs expand their own commands
set -eu
COUNT=$1
SCRIPT=$2
shift 2
SYMPLE=${SYMPLE:-symple}
export COUNT SCRIPT SYMPLE
rm -f report
printf '%s\n' "$@" >parts

# job NAME COMMAND OPTION..: submits a job, and writes its number.
job() {
    name=$1
    command=$2
    shift 2
    sbatch --parsable --job-name="$name" --output="$name-%a.log" "$@" --wrap "$command"
}

# What is cut off leaves no file of a part: each is written under another name first.
count='part=$(sed -n "${SLURM_ARRAY_TASK_ID}p" parts)
    rows=$("$SYMPLE" run --form csv "$COUNT" "$part") || exit
    echo "$rows" | awk "NR == 2 { n = \$1 } END { print n + 0 }" >"$part.count"'
numbers='first=1
    while read -r part; do
        echo "$first $part"
        first=$((first + $(cat "$part.count"))) || exit
    done <parts >numbers'
map='set -- $(sed -n "${SLURM_ARRAY_TASK_ID}p" numbers)
    "$SYMPLE" map --first "$1" "$SCRIPT" "$2" >"$2.run.new" && mv "$2.run.new" "$2.run"'
# With a faulty row the status is 1, and the report is there all the same.
reduce='"$SYMPLE" reduce "$SCRIPT" $(awk "{ print \$2 \".run\" }" numbers) >report.new ||
    [ $? -eq 1 ] && mv report.new report'

counted=$(job count "$count" --array="1-$#")
numbered=$(job numbers "$numbers" --dependency="afterok:$counted" --kill-on-invalid-dep=yes)
mapped=$(job map "$map" --dependency="afterok:$numbered" --kill-on-invalid-dep=yes --array="1-$#")
job reduce "$reduce" --dependency="afterok:$mapped" --kill-on-invalid-dep=yes --wait >/dev/null
# If a job before it failed, this one was cancelled, with status 0.
[ -e report ] || {
    echo "slurm.sh: a job failed; the logs are beside the parts" >&2
    exit 1
}
