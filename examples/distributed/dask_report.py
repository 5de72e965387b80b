#!/usr/bin/python3
"""The report on a log in parts by Dask. Its workers count the records of each part, and summarise
each part; the report is then made here, on standard output. All see the same directories.

    dask_report.py SCHEDULER COUNT SCRIPT PART...

SCHEDULER is the scheduler's address, as tcp://127.0.0.1:8786, and COUNT counts records, as
count.symple does. SYMPLE names the program; by default it is symple. The status is that of `reduce`,
or 1 with a message if a part can't be summarised.
"""

import csv
import io
import itertools
import os
import subprocess
import sys

from distributed import Client

SYMPLE = os.environ.get("SYMPLE", "symple")


def records(part, count):
    """How many records a part has. A part without records has no group, and so no row."""
    command = [SYMPLE, "run", "--form", "csv", count, part]
    report = subprocess.run(command, check=True, stdout=subprocess.PIPE).stdout
    rows = list(csv.reader(io.StringIO(report.decode())))
    return int(rows[1][0]) if len(rows) > 1 else 0


def summarise(first, part, script):
    """The name of the run file of a part. What is cut off leaves no such file."""
    with open(f"{part}.run.new", "wb") as file:
        command = [SYMPLE, "map", "--first", str(first), script, part]
        subprocess.run(command, check=True, stdout=file)
    os.replace(f"{part}.run.new", f"{part}.run")
    return f"{part}.run"


def main():
    scheduler, count, script, *parts = sys.argv[1:]
    count, script, *parts = map(os.path.abspath, [count, script, *parts])
    client = Client(scheduler)
    counts = client.gather(client.map(records, parts, count=count, pure=False))
    firsts = list(itertools.accumulate([1, *counts[:-1]]))
    for first, part in zip(firsts, parts):
        print(first, os.path.basename(part), file=sys.stderr)
    runs = client.gather(client.map(summarise, firsts, parts, script=script, pure=False))
    return subprocess.run([SYMPLE, "reduce", script, *runs]).returncode


if __name__ == "__main__":
    try:
        sys.exit(main())
    except subprocess.CalledProcessError as error:
        print(f"dask_report.py: {error}", file=sys.stderr)
        sys.exit(1)
