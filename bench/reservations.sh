#!/bin/sh
# Prints, at 1, 16, 64 and 256 registrations, how many instructions `vtl replay` takes for a REGISTER that is refused for its key; for one of
# the key that the nexus has already; and for a pair of a RESERVE and a RELEASE, which tells every other registered nexus that has a slot. The
# reading of the line, the record and the reply are part of each and the same throughout, so what differs is that of the reservations: to judge
# grows with the logarithm of the registrations, and the pair with their number. It takes valgrind and python3, and some minutes.
set -eu
bench=$(cd "$(dirname "$0")" && pwd)
VTL_PROGRAM=${VTL_PROGRAM:-$("$bench/../vtl" build)}
export VTL_PROGRAM
echo "instructions: registrations, a REGISTER refused, a REGISTER again, RESERVE and RELEASE"
for there in 1 16 64 256; do
    refused=$("$bench/each.sh" 18 register_refused 512 $there)
    again=$("$bench/each.sh" 00 register_again 512 $there)
    half=$("$bench/each.sh" 00 reserve_and_release 512 $there)
    printf '%4d  %7d  %7d  %7d\n' $there "$refused" "$again" $((2 * half))
done
