#!/bin/sh
# A tape that lasts: host A writes a backup to a volume in the drive, the server is stopped and started again, and host B reads
# the backup. Prints B's replies in words. With a folder as its argument the library is kept there, else in one that is removed at the end.
top=$(cd "$(dirname "$0")/.." && pwd) || exit 1
work=$(mktemp -d) || exit 1
media=${1:-$work/media}

# Starts a server for one session, and waits until it is ready.
start() {
    rm -f "$work/told"
    "$top/vtl" serve --socket "$work/vtl" --media "$media" --new-library --slots 4 --volumes 2 --sessions 1 >"$work/records" 2>"$work/told" &
    server=$!
    until grep -qs '^vtl: serving at ' "$work/told"; do
        if ! kill -0 $server 2>/dev/null; then
            cat "$work/told" >&2
            exit 1
        fi
        sleep 0.1
    done
}

# Two blocks, a filemark, a block and a filemark, on the volume of the first storage element.
start
"$top/vtl" client --socket "$work/vtl" --sas 500000000000000a --port 1 >"$work/written" <<'SCRIPT' || exit 1
0 000000000000
0 a50000000400010000000000
1 000000000000
1 0a0000000400 01020304
1 0a0000000200 0506
1 100000000100
1 0a0000000300 070809
1 100000000100
SCRIPT
wait $server || exit 1
echo "In $media:"
(cd "$media" && LC_ALL=C ls -s --block-size=1 | tail -n +2 && cat library.toml)

# The volume lies where it lay, loaded, at the beginning of its tape.
start
echo "B:"
"$top/vtl" client --socket "$work/vtl" --sas 500000000000000b --port 1 --explain <<'SCRIPT'
1 000000000000
1 080000000400
1 080000000200
1 080000000100
1 080000000300
SCRIPT
status=$?
wait $server || status=1
rm -r "$work"
exit $status
