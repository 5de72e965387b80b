# mawk -F, -f query.awk log.csv
NR == 1 { next }
{ seen[$1] }
$2 == "unbranch" { deleted[$1] = $4 }
$2 == "branch" && $1 in deleted {
    gap = $4 - deleted[$1]
    gaps[$1] = gaps[$1] " " gap
    if (!($1 in shortest) || gap < shortest[$1])
        shortest[$1] = gap
    delete deleted[$1]
}
END {
    for (repo in seen)
        print repo ",[" substr(gaps[repo], 2) "]," (repo in shortest ? shortest[repo] : "none")
}
