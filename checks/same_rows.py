"""Whether two files of CSV have the same rows in any order: same_rows.py REPORT ROWS

The first, a report of symple, has a header, and in each row one field more at the end, the fault.
Used by queries.sh here and in bench.
"""
import csv
import sys


def rows_of(name):
    csv.field_size_limit(sys.maxsize)
    with open(name, newline="") as file:
        return list(csv.reader(file))


wanted = sorted(row[:-1] for row in rows_of(sys.argv[1])[1:])
found = sorted(rows_of(sys.argv[2]))
for want, row in zip(wanted, found):
    if want != row:
        print("%s in place of %s" % (row, want), file=sys.stderr)
        break
sys.exit(wanted != found)
