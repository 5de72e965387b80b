# mawk -F, -f query.awk log.csv
NR == 1 { next }
$2 in last && $1 - last[$2] > 1800 {
    ended[$2] = ended[$2] " " open[$2]
    open[$2] = 0
}
{ open[$2]++; last[$2] = $1 }
END {
    for (user in open)
        print user ",[" substr(ended[user], 2) "]," open[user]
}
