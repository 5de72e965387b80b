"""The same by pandas: query_pandas.py <log.csv"""
import sys

import pandas


def listed(values):
    return "[%s]" % " ".join(str(int(value)) for value in values.dropna())


log = pandas.read_csv(sys.stdin)
gaps = log.groupby("advertiser").second.diff()
pauses = gaps.where(gaps > 3600).groupby(log.advertiser)
found = pandas.DataFrame({"pauses": pauses.agg(listed), "longest": pauses.max()})
found.astype({"longest": "Int64"}).to_csv(sys.stdout, header=False, na_rep="none")
