# What the scripts of bench/workers.sh and bench/runs.sh come to, for gawk and mawk, by `workload`:
# sessions, count, funnel, list or shop. No field is tested, and no number's range. Prints how many
# groups there are, and the first and the last one's cells: a number or a label's place as it is,
# and how many elements a list has, in brackets. A cell of parts is only (1).

BEGIN {
    FS = ","
    sessions = workload == "sessions"
    count = workload == "count"
    funnel = workload == "funnel"
    list = workload == "list"
    shop = workload == "shop"
}

NR == 1 { next }

{ user = list ? "" : $2 }

!(user in number) {
    users[++groups] = user
    number[user] = last[user] = size[user] = 0
}

sessions {
    if ($1 - last[user] > 30) {
        if (!size[user]++ || number[user] > longest[user])
            longest[user] = number[user]
        number[user] = 1
    } else
        number[user]++
    last[user] = $1
}

count { number[user]++ }

funnel && $3 == "c" { number[user] = 1 }

funnel && $3 == "b" && number[user] == 1 {
    time[user, ++size[user]] = $1
    number[user] = 0
}

list { all[++size[user]] = $1 }

shop {
    if ($1 - last[user] > 600) {
        size[user]++
        number[user] = 1
        views[user] = stage[user] = 0
    } else
        number[user]++
    if ($3 == "v")
        views[user]++
    else if ($3 == "c" && stage[user] == 0) {
        stage[user] = 1
        carted[user] = $1
    } else if ($3 == "b" && stage[user] == 1) {
        if (!bought[user]++ || views[user] > most[user])
            most[user] = views[user]
        stage[user] = 2
        views[user] = 0
        soon[user] = $1 - carted[user] <= 300
    }
    last[user] = $1
}

function cells(user) {
    if (sessions)
        return "at (1) " number[user] " [" size[user] "]"
    if (count)
        return "at " number[user]
    if (funnel)
        return "at " number[user] " [" size[user] "]"
    if (shop)
        return "at (1) (1) " stage[user] + 0 " " soon[user] + 0 " " number[user] " " \
            views[user] + 0 " [" size[user] "] [" bought[user] + 0 "]"
    return "at [" size[user] "]"
}

END { print groups " groups; first " cells(users[1]) "; last " cells(users[groups]) }
