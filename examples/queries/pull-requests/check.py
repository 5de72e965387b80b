"""Reads a log and writes the report on it by Python alone, in the form csv: check.py <log.csv"""
import csv
import sys

# The actions of each repository, and of each the places of openings and of closings that follow.
actions = {}
for record in csv.DictReader(sys.stdin):
    actions.setdefault(record["repo"], []).append(record["action"])


def events_between(actions):
    counts = []
    place = 0
    while "open" in actions[place:]:
        begin = actions.index("open", place)
        if "close" not in actions[begin:]:
            break
        place = actions.index("close", begin)
        counts.append(place - begin - 1)
    return counts


rows = csv.writer(sys.stdout, lineterminator="\n")
rows.writerow(["repo", "events", "most", "fault"])
for repo, done in actions.items():
    counts = events_between(done)
    rows.writerow([repo, "[%s]" % " ".join(map(str, counts)), max(counts, default="none"), ""])
