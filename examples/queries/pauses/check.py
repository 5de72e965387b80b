"""Reads a log and writes the report on it by Python alone, in the form csv: check.py <log.csv"""
import csv
import sys

shown = {}
for record in csv.DictReader(sys.stdin):
    shown.setdefault(record["advertiser"], []).append(int(record["second"]))

rows = csv.writer(sys.stdout, lineterminator="\n")
rows.writerow(["advertiser", "pauses", "longest", "fault"])
for advertiser, seconds in shown.items():
    gaps = [then - before for before, then in zip(seconds, seconds[1:])]
    found = [gap for gap in gaps if gap > 3600]
    rows.writerow([advertiser, "[%s]" % " ".join(map(str, found)), max(found, default="none"), ""])
