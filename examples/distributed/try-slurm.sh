#!/bin/sh
# Tries slurm.sh on this machine: starts Slurm (the packages slurmctld, slurmd, slurm-client and
# munge) with one node, in a directory of its own, cuts a log into eight parts, reports on them, and
# compares the report with that of a run over the whole log. Then one part can't be read. At last it
# stops Slurm. Needs root. Run by hand:
#
#     examples/distributed/try-slurm.sh
#
# Ends with 0 if the two reports are the same.
set -eu
here=$(CDPATH='' cd -P "$(dirname "$0")" && pwd)
root=$(dirname "$(dirname "$here")")
SYMPLE=${SYMPLE:-$root/symple}
work=$(mktemp -d /var/tmp/slurm.XXXXXX)
SLURM_CONF=$work/slurm.conf
export SYMPLE SLURM_CONF

# Ends only what was started here, by its numbers.
stop() {
    for pid in "$work"/*.pid; do
        [ ! -s "$pid" ] || kill "$(cat "$pid")" 2>/dev/null || true
    done
    sleep 2
    rm -rf "$work"
}
trap stop EXIT
trap 'exit 1' HUP INT TERM

start() {
    chmod 755 "$work"
    head -c 64 /dev/urandom >"$work/munge.key"
    chmod 600 "$work/munge.key"
    munged --force --key-file="$work/munge.key" --socket="$work/munge.socket" \
        --pid-file="$work/munged.pid" --log-file="$work/munged.log" --seed-file="$work/munge.seed"
    host=$(hostname -s)
    cat >"$SLURM_CONF" <<EOF
ClusterName=trial
SlurmctldHost=$host(127.0.0.1)
SlurmctldPort=26817
SlurmdPort=26818
SlurmUser=root
AuthType=auth/munge
AuthInfo=socket=$work/munge.socket
CryptoType=crypto/munge
ProctrackType=proctrack/linuxproc
TaskPlugin=task/none
SelectType=select/cons_tres
SelectTypeParameters=CR_Core
MpiDefault=none
ReturnToService=2
SwitchType=switch/none
StateSaveLocation=$work/state
SlurmdSpoolDir=$work/spool
SlurmctldPidFile=$work/slurmctld.pid
SlurmdPidFile=$work/slurmd.pid
SlurmctldLogFile=$work/slurmctld.log
SlurmdLogFile=$work/slurmd.log
NodeName=$host NodeAddr=127.0.0.1 CPUs=$(nproc) RealMemory=1000 State=UNKNOWN
PartitionName=all Nodes=$host Default=YES MaxTime=INFINITE State=UP
EOF
    mkdir "$work/state" "$work/spool"
    slurmctld
    slurmd
    for _ in 1 2 3 4 5 6 7 8 9 10 11 12 13 14 15 16 17 18 19 20; do
        [ "$(sinfo -h -o %T 2>/dev/null)" != idle ] || return 0
        sleep 1
    done
    echo "try-slurm.sh: Slurm doesn't start; see its logs" >&2
    tail -n 5 "$work"/*.log >&2
    return 1
}

start
sinfo --version
sinfo
mkdir "$work/log"
cd "$work/log"
awk -f "$here/sessions-log.awk" >log.csv
awk -v records=2500 -v name=part -f "$here/split.awk" log.csv
cp "$here/count.symple" "$root/examples/sessions.symple" .
"$here/slurm.sh" count.symple sessions.symple part-*.csv
cat numbers
wc -c log.csv part-*.csv.run
"$SYMPLE" run sessions.symple log.csv >whole
cmp whole report
echo "the report of Slurm is that of a run: $(wc -l <report) lines"

# A part that can't be read.
echo 'x,y' >>part-03.csv
if "$here/slurm.sh" count.symple sessions.symple part-*.csv; then
    echo "a part that can't be read was taken" >&2
    exit 1
fi
[ ! -e report ]
cat map-3.log
