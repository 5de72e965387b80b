# mawk -F, -f query.awk log.csv
NR > 1 { shown[$2]++ }
END {
    for (advertiser in shown)
        print advertiser "," shown[advertiser]
}
