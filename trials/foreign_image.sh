#!/bin/sh
# A tape that another program made: an image in SIMH's form, here by hand, is put into the folder of a library, which is served over it. A
# host moves the volume into the drive and reads it. Prints the replies in words.
top=$(cd "$(dirname "$0")/.." && pwd) || exit 1
work=$(mktemp -d) || exit 1
mkdir "$work/media" || exit 1

# "hi", a filemark, an erase gap, which is passed over, "odd" with a byte that fills it up, a filemark, and the end mark, after which
# nothing counts. Lengths are little-endian, in octal here.
{
    printf '\002\000\000\000hi\002\000\000\000'
    printf '\000\000\000\000'
    printf '\376\377\377\377'
    printf '\003\000\000\000odd\000\003\000\000\000'
    printf '\000\000\000\000'
    printf '\377\377\377\377what was there before'
} >"$work/media/FOREIGN.tap"

"$top/vtl" serve --socket "$work/vtl" --media "$work/media" --new-library --volumes 1 --sessions 1 >"$work/records" 2>"$work/told" &
server=$!
until grep -qs '^vtl: serving at ' "$work/told"; do
    if ! kill -0 $server 2>/dev/null; then
        cat "$work/told" >&2
        exit 1
    fi
    sleep 0.1
done
# The move, and after what the host hears first: a block of 2, the filemark, a block of 3, the filemark, and the end of data.
"$top/vtl" client --socket "$work/vtl" --sas 500000000000000a --port 1 --explain <<'SCRIPT'
0 000000000000
0 a50000000400010000000000
1 000000000000
1 080000000200
1 080000000100
1 080000000300
1 080000000100
1 080000000100
SCRIPT
status=$?
wait $server || status=1
cat "$work/media/library.toml"
rm -r "$work"
exit $status
