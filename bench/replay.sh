#!/bin/sh
# Runs scripts of 250,000, 500,000 and 1,000,000 commands, TEST UNIT READY and READ KEYS in turn over 100 nexuses of which 50
# are registered, through `vtl replay`, and prints commands per second and peak memory of each, in all and a command. The cost
# of a command doesn't grow with the script where the three rates are alike. Words given to it, as --audit, are given to each `vtl replay`.
set -eu
top=$(cd "$(dirname "$0")/.." && pwd)
program=$("$top/vtl" build)
work=$(mktemp -d)
trap 'rm -rf "$work"' EXIT

for commands in 250000 500000 1000000; do
    awk -v commands="$commands" 'BEGIN {
        for (n = 0; n < 100; n++) {
            printf "50000000000000%02x.1 0 000000000000\n", n
            if (n % 2) printf "50000000000000%02x.1 0 5f000000000000001800 0000000000000000000000000000%04x0000000000000000\n", n, n
        }
        for (i = 150; i < commands; i++)
            printf "50000000000000%02x.1 0 %s\n", (i * 37) % 100, i % 2 ? "5e00000000000000ff00" : "000000000000"
    }' >"$work/script"
    python3 - "$program" "$work/script" "$commands" "$@" <<'END'
import resource, subprocess, sys, time
program, script, commands, options = sys.argv[1], sys.argv[2], int(sys.argv[3]), sys.argv[4:]
start = time.monotonic()
with open(script, "rb") as lines:
    subprocess.run([program, "replay", *options], stdin=lines, stdout=subprocess.DEVNULL, check=True)
seconds = time.monotonic() - start
peak = resource.getrusage(resource.RUSAGE_CHILDREN).ru_maxrss
print(f"{commands} commands: {commands / seconds:,.0f} a second, {peak / 1024:,.0f} MiB at most, {peak * 1024 / commands:,.0f} bytes a command")
END
done
