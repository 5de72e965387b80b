# mawk -F, -f query.awk log.csv
NR == 1 || $3 == running[$2] { next }
$2 in began {
    gap = $1 - began[$2]
    ran[$2] = ran[$2] " " gap
    if (!($2 in longest) || gap > longest[$2])
        longest[$2] = gap
}
{ running[$2] = $3; began[$2] = $1; campaigns[$2] = campaigns[$2] " " $3 }
END {
    for (advertiser in began) {
        most = advertiser in longest ? longest[advertiser] : "none"
        lists = "[" substr(campaigns[advertiser], 2) "],[" substr(ran[advertiser], 2) "]"
        print advertiser "," lists "," most
    }
}
