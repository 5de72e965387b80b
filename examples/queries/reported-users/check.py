"""Reads a log and writes the report on it by Python alone, in the form csv: check.py <log.csv"""
import csv
import sys

messages = {}
for record in csv.DictReader(sys.stdin):
    second, reported = int(record["second"]), record["reported"] == "yes"
    messages.setdefault(record["user"], []).append((second, reported))

rows = csv.writer(sys.stdout, lineterminator="\n")
rows.writerow(["user", "caught", "since", "fault"])
for user, sent in messages.items():
    # The places of the reported messages, and of those that are the third within an hour.
    places = [n for n, (_, reported) in enumerate(sent) if reported]
    thirds = [c for a, c in zip(places, places[2:]) if sent[c][0] - sent[a][0] <= 3600]
    if thirds:
        rows.writerow([user, "yes", len(sent) - thirds[0] - 1, ""])
    else:
        rows.writerow([user, "no", 0, ""])
