"""The same by pandas: query_pandas.py <log.csv"""
import sys

import pandas

log = pandas.read_csv(sys.stdin)
alone = (log.action == "push").groupby(log.repo).all()
alone.map({True: "yes", False: "no"}).to_csv(sys.stdout, header=False)
