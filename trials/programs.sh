#!/bin/sh
# Programs of Debian that know nothing of this one, at two libraries with the profile for hosts: a Linux guest logs in at both, and runs mtx, mt,
# tar, lsscsi, sg3-utils, sdparm, smartctl and udev there (trials/programs_guest.sh). What they print is shown, and what they have to say is
# looked for. Status 0 if all was so. As root, with debootstrap, e2fsprogs and qemu-system-x86; with a folder as its argument the root is kept
# there for the next run.
set -eu
trials=$(cd "$(dirname "$0")" && pwd -P)
# shellcheck source=trials/guest.sh
. "$trials/guest.sh"

say "a root"
make_roots "$guest"
install_in "$guest" sdparm smartmontools

say "two libraries"
serve 13260 1A2B3C4D --drives 2 --slots 4 --volumes 4 --volume-size 256M
serve 13261 0000BEEF

say "a guest"
run_guest "$guest" "$trials/programs_guest.sh"

say "what came of it"
look_at_guest
echo "all is as it should be"
