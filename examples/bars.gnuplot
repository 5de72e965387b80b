# The balance of each account as a bar, from a report in the form csv.
set datafile separator ","
set terminal pngcairo size 700,420 font "sans,11"
set title "Balance of each account"
set ylabel "balance"
set yrange [0:]
set grid ytics
set style fill solid 0.6
set boxwidth 0.6
unset key
plot "report.csv" using ($2 / 100.0):xtic(1) every ::1 with boxes
