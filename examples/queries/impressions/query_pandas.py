"""The same by pandas: query_pandas.py <log.csv"""
import sys

import pandas

log = pandas.read_csv(sys.stdin)
log.groupby("advertiser").size().to_csv(sys.stdout, header=False)
