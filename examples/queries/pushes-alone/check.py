"""Reads a log and writes the report on it by Python alone, in the form csv: check.py <log.csv"""
import csv
import sys

actions = {}
for record in csv.DictReader(sys.stdin):
    actions.setdefault(record["repo"], set()).add(record["action"])

rows = csv.writer(sys.stdout, lineterminator="\n")
rows.writerow(["repo", "pushes_alone", "fault"])
for repo, kinds in actions.items():
    rows.writerow([repo, "yes" if kinds == {"push"} else "no", ""])
