#!/bin/sh
# Measures a volume that is kept next to one that isn't: WRITE(6) and READ(6) of 64 KiB at `vtl serve`, the longest of them, the filemark
# behind them, SPACE over all, and a start that reads it.
#   media.sh [GIB [FOLDER]]    8 GiB, in a folder that is removed again; the disk of FOLDER counts, and twice as much memory
set -eu
bench=$(cd "$(dirname "$0")" && pwd)
top=$(dirname "$bench")
gib=${1:-8}
work=$(mktemp -d -p "${2:-${TMPDIR:-/tmp}}")
trap 'rm -rf "$work"' EXIT
program=${VTL_PROGRAM:-$("$top/vtl" build)}
cc -O2 -std=gnu11 -o "$work/media_load" "$bench/media_load.c"

serve() {
    rm -f "$work/told"
    "$program" serve --socket "$work/vtl" --sessions 1 --volume-size "$((gib + 1))G" "$@" >/dev/null 2>"$work/told" &
    server=$!
    until grep -qs '^vtl: serving at ' "$work/told"; do sleep 0.1; kill -0 $server; done
}

echo "not kept:"
serve
"$work/media_load" "$work/vtl" "$gib"
wait $server
echo "kept in $work:"
serve --media "$work/media" --new-library
"$work/media_load" "$work/vtl" "$gib"
wait $server
begun=$(date +%s%N)
serve --media "$work/media"
echo "  a start that reads it: $((($(date +%s%N) - begun) / 1000000)) ms"
kill $server
