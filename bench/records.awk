# Writes a log of `records` amounts from -1,000,000 to 1,000,000, the same ones at every run: the
# numbers of the generator x -> 16807 x mod 2^31 - 1, from 1 on.

BEGIN {
    print "amount"
    number = 1
    for (record = 0; record < records; record++) {
        number = (number * 16807) % 2147483647
        print number % 2000001 - 1000000
    }
}
