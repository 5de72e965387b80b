# mawk -F, -f query.awk log.csv
NR == 1 { next }
{ since[$2] += 0 }
$2 in caught { since[$2]++; next }
$4 == "yes" {
    if ($2 in before && $1 - before[$2] <= 3600)
        caught[$2]
    if ($2 in last)
        before[$2] = last[$2]
    last[$2] = $1
}
END {
    for (user in since)
        print user "," (user in caught ? "yes" : "no") "," since[user]
}
