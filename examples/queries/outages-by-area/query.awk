# mawk -F, -f query.awk log.csv
NR == 1 { next }
{ seen[$3] }
$4 != "yes" { next }
$3 in last && $1 - last[$3] >= 120 {
    gap = $1 - last[$3]
    found[$3] = found[$3] " " gap
    if (gap > longest[$3])
        longest[$3] = gap
}
{ last[$3] = $1 }
END {
    for (area in seen)
        print area ",[" substr(found[area], 2) "]," (area in longest ? longest[area] : "none")
}
