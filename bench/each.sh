#!/bin/sh
# Prints how many instructions `vtl replay` takes for each command of a kind of bench/scripts.py, as `each.sh STATUS KIND COUNT [THERE]`, by
# callgrind: on a script and on one with twice as many commands, so that the difference is that of the commands alone. It ends with
# status 1 where one of them has another status. VTL_PROGRAM names the program, where it isn't the one that `./vtl build` prints. It takes
# valgrind and python3.
set -eu
bench=$(cd "$(dirname "$0")" && pwd)
program=${VTL_PROGRAM:-$("$bench/../vtl" build)}
work=$(mktemp -d)
trap 'rm -rf "$work"' EXIT
status=$1
kind=$2
count=$3
shift 3

instructions() {
    python3 "$bench/scripts.py" "$kind" "$@" >"$work/script"
    valgrind --tool=callgrind --callgrind-out-file=/dev/null "$program" replay <"$work/script" 2>"$work/counted" >"$work/lines"
    if tail -n "$1" "$work/lines" | grep -qv "^$status"; then
        echo "a command of $kind had another status than $status" >&2
        exit 1
    fi
    awk '/Collected/ { print $NF }' "$work/counted"
}

short=$(instructions "$count" "$@")
long=$(instructions $((2 * count)) "$@")
echo $(((long - short) / count))
