#!/bin/sh
# Tries dask_report.py on this machine: starts a scheduler of Dask and two workers (the package
# python3-distributed), cuts a log into eight parts, reports on them, and compares the report with
# that of a run over the whole log. Then one part can't be read. At last it stops what it started.
# Run by hand:
#
#     examples/distributed/try-dask.sh
#
# PYTHON names a Python that has the package. Ends with 0 if the two reports are the same.
set -eu
here=$(CDPATH='' cd -P "$(dirname "$0")" && pwd)
root=$(dirname "$(dirname "$here")")
SYMPLE=${SYMPLE:-$root/symple}
python=${PYTHON:-/usr/bin/python3}
export SYMPLE
work=$(mktemp -d)
started=

# Ends only what was started here, by its numbers.
stop() {
    for pid in $started; do
        kill "$pid" 2>/dev/null || true
    done
    wait
    rm -rf "$work"
}
trap stop EXIT
trap 'exit 1' HUP INT TERM

address=tcp://127.0.0.1:18786
cd "$work"
"$python" -m distributed.cli.dask_scheduler --host 127.0.0.1 --port 18786 --no-dashboard \
    >scheduler.log 2>&1 &
started=$!
for worker in 1 2; do
    "$python" -m distributed.cli.dask_worker "$address" --nthreads 2 --no-dashboard \
        --name "worker-$worker" --local-directory "$work" >"worker-$worker.log" 2>&1 &
    started="$started $!"
done

"$python" -c 'import dask; print("Dask", dask.__version__)'
awk -f "$here/sessions-log.awk" >log.csv
awk -v records=2500 -v name=part -f "$here/split.awk" log.csv
"$python" "$here/dask_report.py" "$address" "$here/count.symple" "$root/examples/sessions.symple" \
    part-*.csv >report
"$SYMPLE" run "$root/examples/sessions.symple" log.csv >whole
cmp whole report
echo "$(grep -l 'Registered to' worker-*.log | wc -l) workers"
echo "the report of Dask is that of a run: $(wc -l <report) lines"

# A part that can't be read.
echo 'x,y' >>part-03.csv
if "$python" "$here/dask_report.py" "$address" "$here/count.symple" \
    "$root/examples/sessions.symple" part-*.csv >report; then
    echo "a part that can't be read was taken" >&2
    exit 1
fi
[ ! -s report ]
grep -h 'part-03' worker-*.log | grep '^symple: ' | sort -u
