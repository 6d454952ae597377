#!/bin/sh
# Two hosts at one library that is served at a socket: A moves a volume into the drive, reserves it and writes a block; B's WRITE meets the
# conflict, and its replies are said in words. After their replies come the records of the library.
top=$(cd "$(dirname "$0")/.." && pwd) || exit 1
work=$(mktemp -d) || exit 1
"$top/vtl" serve --socket "$work/vtl" --sessions 2 >"$work/records" 2>"$work/told" &
server=$!
until grep -qs '^vtl: serving at ' "$work/told"; do
    if ! kill -0 $server 2>/dev/null; then
        cat "$work/told" >&2
        exit 1
    fi
    sleep 0.1
done
echo "A:"
"$top/vtl" client --socket "$work/vtl" --sas 500000000000000a --port 1 <"$top/examples/host_a.script"
echo "B:"
"$top/vtl" client --socket "$work/vtl" --sas 500000000000000b --port 1 --explain <"$top/examples/host_b.script"
wait $server
status=$?
echo "records:"
cat "$work/records"
grep -v '^vtl: serving at ' "$work/told" >&2
rm -r "$work"
exit $status
