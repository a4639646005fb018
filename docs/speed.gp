# Wall time of an import against commits, of steady histories of about 1,000 files, from speed.tsv.
set terminal svg size 900,520 font "Helvetica,14" background "#ffffff"
set datafile separator "\t"
set datafile missing NaN
set logscale xy
set xrange [600:200000]
set xlabel "commits"
set ylabel "wall time, seconds"
set key left top
set grid
set format x "%.0f"
set title "Importing steady histories of about 1,000 files"
row(program) = (strcol(1)[1:7] eq "steady " && strcol(3) eq "import" && strcol(4) eq program && $2 > 1) ? $5 : NaN
plot for [program in "'git fast-import' 'git fast-import, compression 0' 'gx' 'hashed by the kit'"] \
  "docs/speed.tsv" using 2:(row(program)) with linespoints linewidth 2 pointtype 7 title program
