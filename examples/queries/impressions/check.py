"""Reads a log and writes the report on it by Python alone, in the form csv: check.py <log.csv"""
import collections
import csv
import sys

shown = collections.Counter(record["advertiser"] for record in csv.DictReader(sys.stdin))

rows = csv.writer(sys.stdout, lineterminator="\n")
rows.writerow(["advertiser", "impressions", "fault"])
for advertiser, count in shown.items():
    rows.writerow([advertiser, count, ""])
