"""What sessions.symple reports, with Python's csv: the range of no number is tested."""

import csv
import sys


class Group:
    __slots__ = ("last", "open", "sessions", "longest")

    def __init__(self):
        self.last = self.open = self.sessions = 0
        self.longest = None


def fold(path):
    groups = {}
    with open(path, newline="", encoding="utf-8") as file:
        rows = csv.reader(file)
        header = next(rows)
        time_at, user_at = header.index("ts"), header.index("user")
        for row in rows:
            group = groups.get(row[user_at])
            if group is None:
                group = groups[row[user_at]] = Group()
            time = int(row[time_at])
            if time - group.last > 30:
                if group.longest is None or group.open > group.longest:
                    group.longest = group.open
                group.sessions += 1
                group.open = 1
            else:
                group.open += 1
            group.last = time
    return groups


print("user | sessions | open | longest")
for user, group in fold(sys.argv[1]).items():
    longest = "none" if group.longest is None else group.longest
    print(f"{user} | {group.sessions} | {group.open} | {longest}")
print("--")
