# Draws flipping.svg from flipping.csv: frame errors, undetected errors and steps against Eb/N0.
# Run it in the folder of flipping.csv: `gnuplot flipping.gp`. Debian has gnuplot in the package gnuplot-nox.
# The flipping.svg that is committed was made by gnuplot 5.4.
set terminal svg size 1260,600 font "sans-serif,13" background "white"
set output "flipping.svg"
set datafile separator ","
set datafile columnheaders
set datafile missing NaN

# Payload sizes, each in its colour, and a column's value in the rows of one size and decoder.
array sizes[3] = [128, 256, 512]
array colour[3] = ["#0072b2", "#d55e00", "#009e73"]
of(k, decoder, y) = column("k") == k && strcol("decoder") eq decoder ? column(y) : NaN
name(k, decoder) = sprintf("k = %d, %s", k, decoder)
both = "full and restarted" # they accept the same frames

set multiplot layout 1,3 title "What flipping gains: N = 1024, check of 16 bits, T = 13, BPSK under Gaussian noise, 100,000 frames a point" font ",17"
set tmargin at screen 0.87
set bmargin at screen 0.33
set key at graph 0, graph -0.18 left top Left reverse vertical samplen 5 maxrows 7
set grid linetype 1 linecolor rgb "#dddddd"
set xlabel "Eb/N0 in dB, for a bit of the payload" offset 0,0.4
set xrange [0.5:3.5]
set format x "%.1f"
set logscale y
set format y "10^{%L}"
set pointsize 0.6

set title "Frame errors" font ",15" offset 0,-0.6
set ylabel "frame-error rate"
set yrange [1e-5:1]
plot for [i=1:3] "flipping.csv" using "ebn0_db":(of(sizes[i], "one pass", "frame_error_rate")) with lines linewidth 2 dashtype 3 linecolor rgb colour[i] title name(sizes[i], "one pass"), \
     for [i=1:3] "" using "ebn0_db":(of(sizes[i], "full", "frame_error_rate")) with linespoints linewidth 2 pointtype 7 linecolor rgb colour[i] title name(sizes[i], both)

# Points without lines: many ratios have no such error.
set title "Undetected errors, where there were any"
set ylabel "undetected-error rate"
set yrange [1e-6:1e-3]
plot for [i=1:3] "flipping.csv" using "ebn0_db":(of(sizes[i], "one pass", "undetected_error_rate")) with points pointtype 6 pointsize 0.9 linecolor rgb colour[i] title name(sizes[i], "one pass"), \
     for [i=1:3] "" using "ebn0_db":(of(sizes[i], "full", "undetected_error_rate")) with points pointtype 7 linecolor rgb colour[i] title name(sizes[i], both)

set title "Steps (f and g values computed)"
set ylabel "average steps for a frame"
set yrange [8000:100000]
set ytics ("8,000" 8000, "10,000" 10000, "20,000" 20000, "50,000" 50000, "100,000" 100000)
plot for [i=1:3] "flipping.csv" using "ebn0_db":(of(sizes[i], "full", "average_steps")) with linespoints linewidth 2 pointtype 7 linecolor rgb colour[i] title name(sizes[i], "full"), \
     for [i=1:3] "" using "ebn0_db":(of(sizes[i], "restarted", "average_steps")) with linespoints linewidth 2 dashtype 2 pointtype 7 linecolor rgb colour[i] title name(sizes[i], "restarted"), \
     "" using "ebn0_db":(strcol("decoder") eq "one pass" ? column("average_steps") : NaN) smooth unique with lines linewidth 2 dashtype 3 linecolor rgb "black" title "one pass, each k"
unset multiplot
