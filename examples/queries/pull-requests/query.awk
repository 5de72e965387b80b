# mawk -F, -f query.awk log.csv
NR == 1 { next }
{ seen[$1] }
$1 in events && $2 == "close" {
    between[$1] = between[$1] " " events[$1]
    if (!($1 in most) || events[$1] > most[$1])
        most[$1] = events[$1]
    delete events[$1]
    next
}
$1 in events { events[$1]++; next }
$2 == "open" { events[$1] = 0 }
END {
    for (repo in seen)
        print repo ",[" substr(between[repo], 2) "]," (repo in most ? most[repo] : "none")
}
