"""Reads a log and writes the report on it by Python alone, in the form csv: check.py <log.csv"""
import csv
import sys

countries = {}
for record in csv.DictReader(sys.stdin):
    countries.setdefault(record["advertiser"], []).append(record["country"])

rows = csv.writer(sys.stdout, lineterminator="\n")
rows.writerow(["advertiser", "one_country", "first", "fault"])
for advertiser, found in countries.items():
    rows.writerow([advertiser, "yes" if len(set(found)) == 1 else "no", found[0], ""])
