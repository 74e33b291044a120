# Draws sets.svg from sets.csv: frame errors of one pass, single flips and flip sets against Eb/N0.
# Run it in the folder of sets.csv: `gnuplot sets.gp`. Debian has gnuplot in the package gnuplot-nox.
# The sets.svg that is committed was made by gnuplot 5.4.
set terminal svg size 1260,560 font "sans-serif,13" background "white"
set output "sets.svg"
set datafile separator ","
set datafile columnheaders
set datafile missing NaN

# Decoders, each with its trial limit, colour and mark.
array decoder[5] = ["one pass", "single flips", "DSCF-1", "DSCF-2", "DSCF-3"]
array limit[5] = [1, 13, 8, 51, 301]
array colour[5] = ["#000000", "#0072b2", "#56b4e9", "#d55e00", "#009e73"]
array mark[5] = [4, 6, 8, 10, 7]
of(k, decoder) = column("k") == k && strcol("decoder") eq decoder ? column("frame_error_rate") : NaN
name(i) = sprintf("%s, T = %d", decoder[i], limit[i])

set multiplot layout 1,3 title "What flip sets gain: N = 1024, check of 16 bits, BPSK under Gaussian noise" font ",17"
set tmargin at screen 0.85
set bmargin at screen 0.19
set grid linetype 1 linecolor rgb "#dddddd"
set xlabel "Eb/N0 in dB, for a bit of the payload" offset 0,0.4
set xrange [0.25:3.75]
set format x "%.1f"
set logscale y
set format y "10^{%L}"
set ylabel "frame-error rate"
set yrange [1e-4:1]
set pointsize 0.8

# One key for all three, below them.
unset key
do for [i=1:5] {
    set label i name(i) at screen 0.16 * i - 0.06, screen 0.04 point pointtype mark[i] linecolor rgb colour[i] linewidth 2 offset 1,0
}

do for [k in "128 256 512"] {
    set title sprintf("k = %s", k) font ",15" offset 0,-0.6
    plot for [i=1:5] "sets.csv" using "ebn0_db":(of(int(k), decoder[i])) with linespoints linewidth 2 pointtype mark[i] linecolor rgb colour[i]
    unset label
    unset ylabel
}
unset multiplot
