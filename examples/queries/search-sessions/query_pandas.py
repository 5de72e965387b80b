"""The same by pandas: query_pandas.py <log.csv"""
import sys

import pandas


def listed(values):
    return "[%s]" % " ".join(str(int(value)) for value in values.dropna())


log = pandas.read_csv(sys.stdin)
begins = log.groupby("user").second.diff() > 1800
session = begins.groupby(log.user).cumsum()
sizes = log.groupby(["user", session]).size().groupby("user")
ended = sizes.agg(lambda counts: listed(counts[:-1]))
pandas.DataFrame({"ended": ended, "open": sizes.last()}).to_csv(sys.stdout, header=False)
