"""The same by pandas: query_pandas.py <log.csv"""
import sys

import pandas

log = pandas.read_csv(sys.stdin)
# After each record whether the repository is deleted, and then before it.
after = log.action.map({"delete": 1, "create": 0}).groupby(log.repo).ffill()
before = after.groupby(log.repo).shift() == 1
counted = before & (log.action != "create")
counted.groupby(log.repo).sum().to_csv(sys.stdout, header=False)
