# Shows where a record stands: its file, the line on which it begins, and that line. Records are
# counted as symple counts them: from 1 through all files, without the headers and the empty lines,
# and a line end inside quotes ends no record. For files whose lines end in LF or CRLF.
# Usage: awk -v record=N -f examples/record.awk FILE...

FNR == 1 { header = 1; quotes = 0 }
quotes % 2 == 0 { line = FNR; text = $0 }
{ quotes += gsub(/"/, "\"") }
quotes % 2 || (line == FNR && /^\r?$/) { next }
header { header = 0; next }
++count == record { print FILENAME ":" line ": " text; exit }
