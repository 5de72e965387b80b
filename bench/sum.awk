# The bare sum of a log's numbers, with no test of a line or of the range.
NR > 1 { total += $0 }
END { printf "total\n%.0f\n--\n", total }
