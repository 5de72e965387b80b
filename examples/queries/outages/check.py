"""Reads a log and writes the report on it by Python alone, in the form csv: check.py <log.csv"""
import csv
import sys

seconds = [int(row["second"]) for row in csv.DictReader(sys.stdin) if row["answered"] == "yes"]
gaps = [then - before for before, then in zip(seconds, seconds[1:])]
found = [gap for gap in gaps if gap >= 120]

rows = csv.writer(sys.stdout, lineterminator="\n")
rows.writerow(["stretches", "longest", "fault"])
rows.writerow(["[%s]" % " ".join(map(str, found)), max(found, default="none"), ""])
