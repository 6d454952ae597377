#!/bin/sh
# Amanda of Debian at a library with the profile for hosts: a Linux guest logs in, and amdump writes a backup straight to tapes of the library,
# which goes on from one tape to the next where the drive warns of the end (LEOM), and what is fetched from the tapes is compared
# (trials/amanda_guest.sh). What is printed is shown. Status 0 if all was so. As root, with debootstrap, e2fsprogs and qemu-system-x86; with a
# folder as its argument the root is kept there for the next run.
set -eu
trials=$(cd "$(dirname "$0")" && pwd -P)
# shellcheck source=trials/guest.sh
. "$trials/guest.sh"

say "a root"
make_roots "$guest"
# With what Amanda's programs need and its packages do not ask for: a module of Perl, and ps.
install_in "$guest" amanda-server amanda-client libencode-locale-perl procps

say "a library of small tapes"
serve 13280 1A2B3C4D --drives 2 --slots 6 --volumes 4 --volume-size 64M

say "a guest"
run_guest "$guest" "$trials/amanda_guest.sh"

say "what came of it"
look_at_guest
echo "all is as it should be"
