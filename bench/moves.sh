#!/bin/sh
# Prints how many instructions a MOVE MEDIUM costs `vtl replay`, between 16, 128 and 1,024 storage elements and four drives, by
# callgrind: on a script and on one with twice as many moves, so that the difference is that of the moves alone. The cost of a
# move doesn't grow with the number of elements where the three are alike. Then it runs 100,000 moves between 1,024 elements and
# four drives, and prints moves per second. It takes valgrind and python3.
set -eu
bench=$(cd "$(dirname "$0")" && pwd)
top=$(dirname "$bench")
program=$("$top/vtl" build)
work=$(mktemp -d)
trap 'rm -rf "$work"' EXIT

# Prints a script of so many moves, in turn into a drive and out of it again, over all drives and all the storage elements.
script() {
    python3 - "$1" "$2" <<'END'
import sys
moves, slots = int(sys.argv[1]), int(sys.argv[2])
host = "500000000000000a.1 0"
print(host, "000000000000")
for move in range(moves):
    drive, slot = 0x100 + move // 2 % 4, 0x400 + move // 2 % slots
    source, destination = (drive, slot) if move % 2 else (slot, drive)
    print(host, f"a5000000{source:04x}{destination:04x}00000000")
END
}

instructions() {
    valgrind --tool=callgrind --callgrind-out-file=/dev/null "$program" replay --drives 4 --slots "$1" --volumes "$1" \
        <"$work/$2" 2>"$work/counted" >"$work/lines"
    if grep -q "^02 70000[^6]" "$work/lines"; then
        echo "a move was refused" >&2
        exit 1
    fi
    awk '/Collected/ { print $NF }' "$work/counted"
}

for slots in 16 128 1024; do
    script 2000 "$slots" >"$work/short"
    script 4000 "$slots" >"$work/long"
    short=$(instructions "$slots" short)
    long=$(instructions "$slots" long)
    echo "$slots elements: $(((long - short) / 2000)) instructions a move"
done

script 100000 1024 >"$work/script"
python3 - "$program" "$work/script" <<'END'
import subprocess, sys, time
start = time.monotonic()
with open(sys.argv[2], "rb") as lines:
    subprocess.run([sys.argv[1], "replay", "--drives", "4", "--slots", "1024", "--volumes", "1024"], stdin=lines, stdout=subprocess.DEVNULL, check=True)
print(f"100000 moves: {100000 / (time.monotonic() - start):,.0f} a second")
END
