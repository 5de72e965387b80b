"""The same by pandas: query_pandas.py <log.csv"""
import sys

import pandas

log = pandas.read_csv(sys.stdin)
countries = log.groupby("advertiser").country
alone = (countries.nunique() == 1).map({True: "yes", False: "no"})
pandas.DataFrame({"alone": alone, "first": countries.first()}).to_csv(sys.stdout, header=False)
