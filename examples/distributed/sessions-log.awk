# A log of 20,000 records of 997 users, in the order of time, to try a way of reporting in parts.
BEGIN {
    print "second,user"
    for (i = 1; i <= 20000; i++)
        print i * 3 + i * i % 7 ",u" i * i % 997
}
