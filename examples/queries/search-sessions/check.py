"""Reads a log and writes the report on it by Python alone, in the form csv: check.py <log.csv"""
import csv
import sys

searches = {}
for record in csv.DictReader(sys.stdin):
    searches.setdefault(record["user"], []).append(int(record["second"]))

rows = csv.writer(sys.stdout, lineterminator="\n")
rows.writerow(["user", "ended", "open", "fault"])
for user, seconds in searches.items():
    # The places at which sessions begin, and the end of the list.
    begins = [n for n in range(1, len(seconds)) if seconds[n] - seconds[n - 1] > 1800]
    places = [0] + begins + [len(seconds)]
    sizes = [end - begin for begin, end in zip(places, places[1:])]
    rows.writerow([user, "[%s]" % " ".join(map(str, sizes[:-1])), sizes[-1], ""])
