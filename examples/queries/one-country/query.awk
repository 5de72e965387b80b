# mawk -F, -f query.awk log.csv
NR == 1 { next }
!($2 in first) { first[$2] = $4 }
$4 != first[$2] { several[$2] }
END {
    for (advertiser in first)
        print advertiser "," (advertiser in several ? "no" : "yes") "," first[advertiser]
}
