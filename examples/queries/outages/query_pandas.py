"""The same by pandas: query_pandas.py <log.csv"""
import sys

import pandas


def listed(values):
    return "[%s]" % " ".join(str(int(value)) for value in values.dropna())


log = pandas.read_csv(sys.stdin)
gaps = log.second[log.answered == "yes"].diff()
gaps = gaps[gaps >= 120].astype(int)
print(listed(gaps), max(gaps, default="none"), sep=",")
