#!/bin/sh
# Counts what a round trip costs `vtl serve` in instructions, by callgrind: TEST UNIT READY, WRITE(6) of 64 KiB, and READ(6) of 64 KiB.
# Each is counted over a session of some commands and over one of twice as many: the difference is that of the commands alone, with
# the line of its record at the end. Of a long copy callgrind counts an instruction for each byte. The host is `vtl client`, and isn't
# counted. It takes valgrind and python3, and a minute.
set -eu
bench=$(cd "$(dirname "$0")" && pwd)
top=$(dirname "$bench")
program=$("$top/vtl" build)
work=$(mktemp -d)
trap 'rm -rf "$work"' EXIT

# Prints a host's script of some commands at a drive that holds a volume.
script() {
    python3 - "$1" "$2" <<'END'
import sys

kind, count = sys.argv[1], int(sys.argv[2])
test_unit_ready = "000000000000"
print("0 " + test_unit_ready)
print("0 a50000000400010000000000")
print("1 " + test_unit_ready)
print("1 " + test_unit_ready)
if kind == "ready":
    for _ in range(count):
        print("1 " + test_unit_ready)
else:
    for _ in range(count):
        print("1 0a0001000000 " + "5a" * 65536)
if kind == "read":
    print("1 010000000000")
    for _ in range(count):
        print("1 080001000000")
END
}

# Prints the instructions of a server with one session of so many commands.
instructions() {
    script "$1" "$2" >"$work/script"
    valgrind --tool=callgrind --callgrind-out-file=/dev/null "$program" serve --socket "$work/socket" --sessions 1 \
        >/dev/null 2>"$work/counted" &
    server=$!
    until [ -S "$work/socket" ]; do
        sleep 0.1
        kill -0 $server
    done
    "$program" client --socket "$work/socket" --sas 500000000000000a --port 1 <"$work/script" >"$work/replies"
    wait $server
    [ "$(tail -n 1 "$work/replies" | cut -c 1-2)" = 00 ]
    awk '/Collected/ { print $NF }' "$work/counted"
}

# Prints what one more command costs.
each() {
    short=$(instructions "$1" "$2")
    long=$(instructions "$1" $((2 * $2)))
    echo $(((long - short) / $2))
}

ready=$(each ready 5000)
write=$(each write 100)
read=$(each read 100)
echo "instructions a round trip"
echo "TEST UNIT READY    $ready"
echo "WRITE(6), 64 KiB   $write"
echo "READ(6), 64 KiB    $((read - write))"
