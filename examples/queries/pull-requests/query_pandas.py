"""The same by pandas: query_pandas.py <log.csv"""
import sys

import pandas


def listed(values):
    return "[%s]" % " ".join(str(int(value)) for value in values.dropna())


log = pandas.read_csv(sys.stdin)
# After each record whether a request is open, and then before it.
after = log.action.map({"open": 1, "close": 0}).groupby(log.repo).ffill()
log["is_open"] = after.groupby(log.repo).shift() == 1
log["closed"] = log.is_open & (log.action == "close")
log["event"] = log.is_open & (log.action != "close")
log["request"] = ((log.action == "open") & ~log.is_open).groupby(log.repo).cumsum()
requests = log.groupby(["repo", "request"])[["event", "closed"]].sum()
events = requests.event.where(requests.closed > 0).groupby("repo")
found = pandas.DataFrame({"events": events.agg(listed), "most": events.max()})
found.astype({"most": "Int64"}).to_csv(sys.stdout, header=False, na_rep="none")
