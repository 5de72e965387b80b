# What sessions.symple reports, for gawk and mawk: no field is tested, and no number's range.

BEGIN { FS = "," }

NR == 1 { next }

!($2 in open) {
    users[++groups] = $2
    last[$2] = open[$2] = sessions[$2] = 0
    longest[$2] = "none"
}

{
    if ($1 - last[$2] > 30) {
        if (!sessions[$2]++ || open[$2] > longest[$2])
            longest[$2] = open[$2]
        open[$2] = 1
    } else
        open[$2]++
    last[$2] = $1
}

END {
    print "user | sessions | open | longest"
    for (i = 1; i <= groups; i++) {
        user = users[i]
        print user " | " sessions[user] " | " open[user] " | " longest[user]
    }
    print "--"
}
