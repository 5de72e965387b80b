# mawk -F, -f query.awk log.csv
NR == 1 { next }
$2 in last && $1 - last[$2] > 3600 {
    gap = $1 - last[$2]
    pauses[$2] = pauses[$2] " " gap
    if (gap > longest[$2])
        longest[$2] = gap
}
{ last[$2] = $1 }
END {
    for (advertiser in last) {
        most = advertiser in longest ? longest[advertiser] : "none"
        print advertiser ",[" substr(pauses[advertiser], 2) "]," most
    }
}
