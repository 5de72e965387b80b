"""Reads a log and writes the report on it by Python alone, in the form csv: check.py <log.csv"""
import csv
import sys

# The second of each repository's last deletion that no creation has followed yet.
deleted = {}
gaps = {}
for record in csv.DictReader(sys.stdin):
    repo = record["repo"]
    gaps.setdefault(repo, [])
    if record["action"] == "unbranch":
        deleted[repo] = int(record["second"])
    if record["action"] == "branch" and repo in deleted:
        gaps[repo].append(int(record["second"]) - deleted.pop(repo))

rows = csv.writer(sys.stdout, lineterminator="\n")
rows.writerow(["repo", "gaps", "shortest", "fault"])
for repo, found in gaps.items():
    rows.writerow([repo, "[%s]" % " ".join(map(str, found)), min(found, default="none"), ""])
