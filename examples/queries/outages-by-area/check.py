"""Reads a log and writes the report on it by Python alone, in the form csv: check.py <log.csv"""
import csv
import sys

answered = {}
for record in csv.DictReader(sys.stdin):
    seconds = answered.setdefault(record["area"], [])
    if record["answered"] == "yes":
        seconds.append(int(record["second"]))

rows = csv.writer(sys.stdout, lineterminator="\n")
rows.writerow(["area", "stretches", "longest", "fault"])
for area, seconds in answered.items():
    gaps = [then - before for before, then in zip(seconds, seconds[1:])]
    found = [gap for gap in gaps if gap >= 120]
    rows.writerow([area, "[%s]" % " ".join(map(str, found)), max(found, default="none"), ""])
