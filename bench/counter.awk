# What symple does with counter.symple, for a file of one column without quotes: adds each number to
# a total that has to stay in a range, tests that each line is a number in its range, and prints the
# report. Empty lines are passed over.

function refuse() {
    refused = 1
    exit
}

$0 == "" { next }

!header {
    if ($0 != "amount")
        refuse()
    header = 1
    next
}

!/^[ \t]*[-+]?[0-9]+[ \t]*$/ || $0 < -1000000000000 || $0 > 1000000000000 {
    refuse()
}

{ records++ }

!fault {
    total += $0
    if (total < -1000000000000 || total > 1000000000000)
        fault = records
}

END {
    if (refused)
        exit 4
    print "total"
    if (fault)
        print "fault: total overflows at record " fault
    else if (records)
        printf "%.0f\n", total
    print "--"
    exit (fault ? 1 : 0)
}
