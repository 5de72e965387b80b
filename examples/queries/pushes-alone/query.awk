# mawk -F, -f query.awk log.csv
NR > 1 { seen[$1] }
NR > 1 && $2 != "push" { other[$1] }
END {
    for (repo in seen)
        print repo "," (repo in other ? "no" : "yes")
}
