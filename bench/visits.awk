# Writes a log of `records` records of `users` users, the same ones at every run: time goes on by 0
# to 7 seconds a record, and the user is drawn, both by the generator x -> 16807 x mod 2^31 - 1,
# from 1 on. With acts=1 each record has an action too: of eight, one puts into the cart (c), one
# buys (b), and the others view (v). With skewed=1 half of the records, as they are drawn, are of
# ten users, and half of 100,000 others.

BEGIN {
    print acts ? "ts,user,what" : "ts,user"
    split("c b v v v v v v", actions, " ")
    number = 1
    for (record = 0; record < records; record++) {
        number = (number * 16807) % 2147483647
        time += number % 8
        user = int(number / 8)
        if (skewed)
            user = int(number / 65536) % 2 ? user % 10 : 10 + user % 100000
        else
            user %= users
        line = time ",u" user
        print acts ? line "," actions[int(number / 65536) % 8 + 1] : line
    }
}
