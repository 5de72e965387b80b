# mawk -F, -f query.awk log.csv
$4 != "yes" { next }
last && $1 - last >= 120 {
    gap = $1 - last
    found = found " " gap
    if (gap > longest)
        longest = gap
}
{ last = $1 }
END { print "[" substr(found, 2) "]," (longest ? longest : "none") }
