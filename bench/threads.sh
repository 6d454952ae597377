#!/bin/sh
# Measures what connections to one library gain together, at `vtl serve`: TEST UNIT READY, and WRITE(6) and READ(6) of 64 KiB, from
# one, two and four connections, each at a drive of its own and then all at one; and next to them, in the same run, those of a plain server
# (bench/plain_server.h) that reads and answers as many bytes, and threads that only count: more than these gain nothing can on the
# machine. A line says how many microseconds each command took over all connections, and how many times the commands of one connection
# there were. A number says how many runs are made, since times differ much from run to run. It takes cc, and a minute or two a run.
set -eu
bench=$(cd "$(dirname "$0")" && pwd)
top=$(dirname "$bench")
program=${VTL_PROGRAM:-$("$top/vtl" build)}
work=$(mktemp -d)
server=
trap '[ -z "$server" ] || kill "$server"; rm -rf "$work"' EXIT
cc -O2 -std=gnu11 -pthread -o "$work/round_trips" "$bench/round_trips.c"
for _ in $(seq "${1:-1}"); do
    "$program" serve --socket "$work/vtl" --sessions 4 --drives 4 --volumes 4 --volume-size 64M >/dev/null &
    server=$!
    until [ -S "$work/vtl" ]; do sleep 0.1; kill -0 $server; done
    "$work/round_trips" "$work/vtl" "$work/plain" threads
    wait $server
    server=
    rm -f "$work/plain"
done
