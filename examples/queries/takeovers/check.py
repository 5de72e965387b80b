"""Reads a log and writes the report on it by Python alone, in the form csv: check.py <log.csv"""
import csv
import itertools
import sys

shown = {}
for record in csv.DictReader(sys.stdin):
    shown.setdefault(record["advertiser"], []).append((record["campaign"], int(record["second"])))

rows = csv.writer(sys.stdout, lineterminator="\n")
rows.writerow(["advertiser", "campaigns", "ran", "longest", "fault"])
for advertiser, records in shown.items():
    # Each campaign in turn, with the second of its first record.
    turns = [next(turn) for _, turn in itertools.groupby(records, key=lambda record: record[0])]
    ran = [then[1] - now[1] for now, then in zip(turns, turns[1:])]
    campaigns = "[%s]" % " ".join(campaign for campaign, _ in turns)
    rows.writerow(
        [advertiser, campaigns, "[%s]" % " ".join(map(str, ran)), max(ran, default="none"), ""]
    )
