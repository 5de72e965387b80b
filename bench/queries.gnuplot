# The seconds of each query by each way, from the file that DATA names for bench/queries.sh:
#
#     gnuplot -e "data='times'" bench/queries.gnuplot >docs/queries.png
#
# The scale is logarithmic, so that equal distances are equal ratios. A way that was stopped has no
# point.
set terminal pngcairo size 900,480 font "sans,11"
set datafile missing "?"
set title "Twelve queries"
set ylabel "seconds"
set logscale y
set grid xtics ytics
set xtics rotate by -35
set key outside right top
set offsets 0.5, 0.5, 0, 0
stats data skip 1 using 2 nooutput
plot for [way = 2:STATS_columns] data using way:xtic(1) with points pointsize 1.4 \
    title columnheader(way)
