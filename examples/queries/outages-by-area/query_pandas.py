"""The same by pandas: query_pandas.py <log.csv"""
import sys

import pandas


def listed(values):
    return "[%s]" % " ".join(str(int(value)) for value in values.dropna())


log = pandas.read_csv(sys.stdin)
gaps = log[log.answered == "yes"].groupby("area").second.diff()
log["gap"] = gaps.where(gaps >= 120)
gaps = log.groupby("area").gap
found = pandas.DataFrame({"stretches": gaps.agg(listed), "longest": gaps.max()})
found.astype({"longest": "Int64"}).to_csv(sys.stdout, header=False, na_rep="none")
