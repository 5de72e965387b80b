# The balance of each account after each of its payments, from the trace on standard input.
set datafile separator ","
set datafile missing "NaN"
set terminal pngcairo size 900,420 font "sans,11"
set title "Balances after each payment"
set xlabel "record"
set ylabel "balance"
set key outside right
set grid
set xzeroaxis lt -1
of(account, cents) = strcol(2) eq account ? cents / 100.0 : NaN
plot for [account in "food rent travel"] "trace.csv" using 1:(of(account, $3)) \
    with steps linewidth 2 title account
