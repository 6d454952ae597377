#!/bin/sh
# Bacula of Debian at a library with the profile for hosts: a Linux guest logs in, and its director labels the library's tapes by the changer's
# tags, writes a backup that goes on from one tape to the next, restores it, and compares (trials/bacula_guest.sh). What is printed is shown.
# Status 0 if all was so. As root, with debootstrap, e2fsprogs and qemu-system-x86; with a folder as its argument the root is kept there for
# the next run.
set -eu
trials=$(cd "$(dirname "$0")" && pwd -P)
# shellcheck source=trials/guest.sh
. "$trials/guest.sh"

say "a root"
make_roots "$guest"
# With the catalog in a file: debootstrap would take the first alternative of each dependency.
install_in "$guest" bacula-director bacula-director-sqlite3 bacula-sd bacula-fd bacula-console sqlite3

say "a library of small tapes"
serve 13270 1A2B3C4D --drives 2 --slots 6 --volumes 4 --volume-size 64M

say "a guest"
run_guest "$guest" "$trials/bacula_guest.sh"

say "what came of it"
look_at_guest
echo "all is as it should be"
