#!/bin/sh
# Draws the two plots of docs/PERFORMANCE.md into docs/: how many TEST UNIT READYs a second `vtl serve` answers over its Unix socket, by
# the number of connections, each at a drive of its own; and how many MiB a second one connection writes and reads, by the size of a block.
# In both the plain server (bench/plain_server.h) is asked in turn with it. It takes cc and gnuplot, and a minute.
set -eu
bench=$(cd "$(dirname "$0")" && pwd)
top=$(dirname "$bench")
program=$("$top/vtl" build)
plots=$top/docs
work=$(mktemp -d)
trap 'rm -rf "$work"' EXIT
cc -O2 -std=gnu11 -pthread -o "$work/round_trips" "$bench/round_trips.c"
"$program" serve --socket "$work/vtl" --profile hosts --sessions 4 --drives 4 --volumes 4 --volume-size 512M >/dev/null &
server=$!
until [ -S "$work/vtl" ]; do sleep 0.1; kill -0 $server; done
"$work/round_trips" "$work/vtl" "$work/plain" plots "$work"
wait $server
gnuplot <<END
set terminal svg size 720,400 font "sans-serif,13" background "white"
set key left top
set grid
set style data linespoints
set output "$plots/connections.svg"
set xlabel "connections, each at its own drive"
set ylabel "TEST UNIT READYs a second"
set xtics 1
set yrange [0:*]
set format y "%.0f"
plot "$work/connections" using 1:2 title "vtl" linewidth 2, "" using 1:3 title "plain server" linewidth 2
set output "$plots/blocks.svg"
set xlabel "bytes a block"
set ylabel "MiB a second, one connection"
set logscale x 2
set xtics ("512" 512, "2 KiB" 2048, "8 KiB" 8192, "32 KiB" 32768, "128 KiB" 131072, "512 KiB" 524288)
plot "$work/blocks" using 1:2 title "WRITE(6), vtl" linewidth 2, "" using 1:3 title "as many bytes, plain server" linewidth 2, \
    "" using 1:4 title "READ(6), vtl" linewidth 2, "" using 1:5 title "as many bytes, plain server" linewidth 2
END
echo "$plots/connections.svg"
echo "$plots/blocks.svg"
cat "$work/connections" "$work/blocks"
