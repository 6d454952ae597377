#!/bin/sh
# Prints how many instructions a command costs `vtl replay`, and how many it costs bench/least.c, a lean program in C that
# prints the same bytes, for six scripts of bench/scripts.py, and the ratio. Both are counted by callgrind, on a script and on
# one with twice as many commands: the difference is that of the commands alone. It ends with status 1 where what the two print
# differs in a byte. It takes valgrind, cc and python3, and a few minutes. gcc is asked for -O2, since what it makes of the
# printing at -O3 is slower.
set -eu
bench=$(cd "$(dirname "$0")" && pwd)
top=$(dirname "$bench")
program=$("$top/vtl" build)
work=$(mktemp -d)
trap 'rm -rf "$work"' EXIT
cc -O2 -std=c11 -o "$work/least" "$bench/least.c"

# Prints the instructions of a program on a script; what the program prints goes into a file of the third name.
instructions() {
    valgrind --tool=callgrind --callgrind-out-file=/dev/null $1 <"$work/$2" 2>"$work/counted" >"$work/$3"
    awk '/Collected/ { print $NF }' "$work/counted"
}

measure() {
    kind=$1
    count=$2
    python3 "$bench/scripts.py" "$kind" "$count" >"$work/short"
    python3 "$bench/scripts.py" "$kind" $((2 * count)) >"$work/long"
    ours_short=$(instructions "$program replay" short ours.lines)
    least_short=$(instructions "$work/least" short least.lines)
    cmp "$work/ours.lines" "$work/least.lines"
    ours_long=$(instructions "$program replay" long ours.lines)
    least_long=$(instructions "$work/least" long least.lines)
    cmp "$work/ours.lines" "$work/least.lines"
    awk -v kind="$kind" -v count="$count" -v ours=$((ours_long - ours_short)) -v least=$((least_long - least_short)) \
        'BEGIN { printf "%-20s %9.0f : %7.0f  %5.1f\n", kind, ours / count, least / count, ours / least }'
}

echo "instructions a command  vtl : C       ratio"
measure test_unit_ready 20000
measure read_keys 5000
measure read_full_status 300
measure register 1000
measure reserve_and_release 1000
measure write 20
