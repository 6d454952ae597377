#!/bin/sh
# Measures round trips at `vtl serve`: TEST UNIT READY, and WRITE(6) and READ(6) of 64 KiB, from one connection and from four, each
# at a drive of its own; and next to them, in the same run, those of a plain server (bench/plain_server.h) that reads and answers as
# many bytes over the same kind of socket, first as it is, then where it keeps blocks: it copies each once, into memory or from there.
# A line says how many round trips a second each had, over all connections, and the ratio to either.
# It takes cc, and some ten seconds.
set -eu
bench=$(cd "$(dirname "$0")" && pwd)
top=$(dirname "$bench")
program=$("$top/vtl" build)
work=$(mktemp -d)
trap 'rm -rf "$work"' EXIT
cc -O2 -std=gnu11 -pthread -o "$work/round_trips" "$bench/round_trips.c"
"$program" serve --socket "$work/vtl" --sessions 4 --drives 4 --volumes 4 >/dev/null &
server=$!
until [ -S "$work/vtl" ]; do sleep 0.1; kill -0 $server; done
"$work/round_trips" "$work/vtl" "$work/plain"
wait $server
