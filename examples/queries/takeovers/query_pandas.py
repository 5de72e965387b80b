"""The same by pandas: query_pandas.py <log.csv"""
import sys

import pandas


def listed(values):
    return "[%s]" % " ".join(str(int(value)) for value in values.dropna())


log = pandas.read_csv(sys.stdin)
turns = log[log.campaign != log.groupby("advertiser").campaign.shift()].copy()
turns["ran"] = -turns.groupby("advertiser").second.diff(-1)
turns = turns.groupby("advertiser")
campaigns = turns.campaign.agg(lambda names: "[%s]" % " ".join(names))
found = pandas.DataFrame(
    {"campaigns": campaigns, "ran": turns.ran.agg(listed), "longest": turns.ran.max()}
)
found.astype({"longest": "Int64"}).to_csv(sys.stdout, header=False, na_rep="none")
