# mawk -F, -f query.awk log.csv
NR == 1 { next }
{ after[$1] += 0 }
$2 == "create" { delete gone[$1]; next }
$1 in gone { after[$1]++ }
$2 == "delete" { gone[$1] }
END {
    for (repo in after)
        print repo "," after[repo]
}
