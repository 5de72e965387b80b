"""The same by pandas: query_pandas.py <log.csv"""
import sys

import pandas

log = pandas.read_csv(sys.stdin)
reports = log[log.reported == "yes"]
is_third = reports.groupby("user").second.diff(2) <= 3600
third = reports[is_third].reset_index().groupby("user")["index"].min()
log["third"] = log.user.map(third)
log["since"] = log.index > log.third
found = log.groupby("user").agg({"third": "count", "since": "sum"})
found["third"] = (found.third > 0).map({True: "yes", False: "no"})
found.to_csv(sys.stdout, header=False)
