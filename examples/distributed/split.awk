# Splits a log into consecutive parts of so many records, each with the header of the log:
#
#     awk -v records=1000 -v name=part -f split.awk log.csv
#
# makes part-01.csv, part-02.csv and so on. No record may have a line end inside quotes.
NR == 1 { header = $0; next }
(NR - 2) % records == 0 {
    if (part != "") close(part)
    part = sprintf("%s-%02d.csv", name, ++parts)
    print header >part
}
{ print >part }
