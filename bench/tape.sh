#!/bin/sh
# Prints how many instructions `vtl replay` takes for commands at a tape. A WRITE(6) of 64 KiB to a new tape, and one written again from the
# beginning, each less the same command to an empty drive, which reads its line as well and writes nothing: callgrind counts an instruction
# for each byte that is copied. A READ(6) of 64 KiB, with the printing of its data. And behind 1,000, 10,000, 100,000 and 999,000 filemarks
# one filemark more, one spaced over, and each of all where one command spaces over them: what is alike there doesn't grow with the tape. It
# takes valgrind and python3, and some minutes.
set -eu
bench=$(cd "$(dirname "$0")" && pwd)
VTL_PROGRAM=${VTL_PROGRAM:-$("$bench/../vtl" build)}
export VTL_PROGRAM
empty=$("$bench/each.sh" 02 write 50)
new=$("$bench/each.sh" 00 tape_write 50)
both=$("$bench/each.sh" 00 tape_write_again 50)
read=$("$bench/each.sh" 00 tape_read 50)
echo "instructions, those for the bytes among them"
echo "WRITE(6), 64 KiB, to a new tape   $((new - empty))"
echo "WRITE(6), 64 KiB, written again   $((both - new - empty))"
echo "READ(6), 64 KiB, and its printing $((read - new))"
for there in 1000 10000 100000 999000; do
    more=$("$bench/each.sh" 00 tape_marks 100 $there)
    over=$("$bench/each.sh" 00 tape_space 100 $there)
    all=$("$bench/each.sh" 00 tape_space_all 2 $there)
    echo "behind $there filemarks: one more $more, one spaced over $over, each of all spaced over $((all / there))"
done
