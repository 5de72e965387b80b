"""The same by pandas: query_pandas.py <log.csv"""
import sys

import pandas


def listed(values):
    return "[%s]" % " ".join(str(int(value)) for value in values.dropna())


log = pandas.read_csv(sys.stdin)
marks = log[log.action.isin(["branch", "unbranch"])].copy()
earlier = marks.groupby("repo").shift()
ends = (marks.action == "branch") & (earlier.action == "unbranch")
log["gap"] = (marks.second - earlier.second).where(ends)
gaps = log.groupby("repo").gap
found = pandas.DataFrame({"gaps": gaps.agg(listed), "shortest": gaps.min()})
found.astype({"shortest": "Int64"}).to_csv(sys.stdout, header=False, na_rep="none")
