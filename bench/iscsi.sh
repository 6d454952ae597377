#!/bin/sh
# Measures commands over iSCSI: TEST UNIT READY, and WRITE(6) and READ(6) of 64 KiB, from one session and from four, each at a drive of its
# own, one at a time and 32 at once; and next to them, in the same run, the same at the Unix socket of the same server, and a plain server
# (bench/plain_server.h) that reads and answers as many bytes over TCP. A line says how many commands a second each had, over all sessions,
# and the ratios. It takes cc, and a minute or two.
set -eu
bench=$(cd "$(dirname "$0")" && pwd)
top=$(dirname "$bench")
"$top/vtl" build >/dev/null
work=$(mktemp -d)
server=
trap '[ -z "$server" ] || kill "$server"; rm -rf "$work"' EXIT
cc -O2 -std=gnu11 -Wall -Wextra -pthread -o "$work/iscsi_load" "$bench/iscsi_load.c"
name=iqn.2026-11.localhost:vtl
: >"$work/told"
"$top/vtl" serve --socket "$work/vtl" --iscsi 127.0.0.1:0 --any-host --target-name $name --drives 4 --volumes 4 --drain --idle-ping 0 \
    </dev/null >/dev/null 2>"$work/told" &
server=$!
until grep -qs '^vtl: serving at ' "$work/told"; do
    kill -0 "$server" || { cat "$work/told" >&2; exit 1; }
    sleep 0.1
done
port=$(sed -n 's/^vtl: serving at .*127\.0\.0\.1:\([0-9]*\).*/\1/p' "$work/told")
"$work/iscsi_load" "$work/vtl" "$port" $name
kill "$server"
wait "$server" || { cat "$work/told" >&2; exit 1; }
server=
