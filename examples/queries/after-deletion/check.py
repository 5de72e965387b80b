"""Reads a log and writes the report on it by Python alone, in the form csv: check.py <log.csv"""
import csv
import sys

deleted = {}
after = {}
for record in csv.DictReader(sys.stdin):
    repo, action = record["repo"], record["action"]
    after.setdefault(repo, 0)
    if action == "create":
        deleted[repo] = False
        continue
    if deleted.get(repo):
        after[repo] += 1
    if action == "delete":
        deleted[repo] = True

rows = csv.writer(sys.stdout, lineterminator="\n")
rows.writerow(["repo", "actions", "fault"])
for repo, count in after.items():
    rows.writerow([repo, count, ""])
