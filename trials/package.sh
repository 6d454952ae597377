#!/bin/sh
# The package in a Debian of its own, without the toolchain: `apt` installs it in a root that debootstrap makes, where the service is started
# by hand, as there is no systemd. A Linux guest of the same root (trials/package_guest.sh) writes and reads a tape there. Then the guest
# installs the package itself, its systemd starts the service, and it writes a tape to that, reads it again after an upgrade to a second
# package, and after the package was removed and purged the tape has to be there. Status 0 if all was so. As root, with debootstrap,
# e2fsprogs and qemu-system-x86; with a folder as its argument the root is kept there for the next run, as it is after debootstrap.
set -eu
trials=$(cd "$(dirname "$0")" && pwd -P)
# shellcheck source=trials/guest.sh
. "$trials/guest.sh"
port=13260
clean="env -i PATH=/usr/sbin:/usr/bin:/sbin:/bin DEBIAN_FRONTEND=noninteractive LC_ALL=C.UTF-8"
root=$work/root

# Runs a command in a root, without this machine's environment.
in_root() {
    of=$1
    shift
    # shellcheck disable=SC2086 # it is several words
    chroot "$of" $clean "$@"
}

# A line of the unit, as the words of a shell.
line_of_unit() {
    sed -n "s/^$1=//p" "$root/usr/lib/systemd/system/vtl.service" |
        sed -e 's,%t,/run,g' -e 's,%S,/var/lib,g' -e 's,%L,/var/log,g' -e 's/\$\$/$/g'
}

# The service as its unit starts it, in the root: as its user, with its folders.
start_by_hand() {
    in_root "$root" install -d -m 750 -o vtl -g vtl /run/vtl /var/log/vtl
    {
        echo "umask $(line_of_unit UMask)"
        echo "exec $(line_of_unit ExecStart)"
    } >"$root/tmp/start"
    # shellcheck disable=SC2086 # it is several words
    chroot "$root" $clean setpriv --reuid vtl --regid vtl --init-groups sh /tmp/start >"$work/told" 2>&1 </dev/null &
    servers=$!
    until grep -qs '^vtl: serving at ' "$work/told"; do
        kill -0 $servers 2>/dev/null || { cat "$work/told"; exit 1; }
        sleep 0.1
    done
    cat "$work/told"
}

# Each of the programs above becomes the next, so this is the script that handles signals, as systemd has it for the main process.
stop_by_hand() {
    kill -TERM $servers
    wait $servers
    servers=
}

# A second package: the same files, of a later version.
make_second() {
    dpkg-deb -R "$work/$first" "$work/second"
    sed -i '/^Version: /s/$/.1/' "$work/second/DEBIAN/control"
    echo "a second package" >>"$work/second/usr/lib/vtl/build"
    (cd "$work/second" && find usr -type f -print0 | LC_ALL=C sort -z | xargs -0 md5sum >DEBIAN/md5sums)
    dpkg-deb -Zgzip --root-owner-group -b "$work/second" "$work/second.deb" >/dev/null
}

say "two packages"
first=$(cd "$work" && "$top/vtl" package)
make_second
ls "$work"/*.deb

say "a root"
make_roots "$root" "$guest"
for each in "$root" "$guest"; do
    cp "$work/$first" "$each/var/tmp/vtl_1.deb"
    cp "$work/second.deb" "$each/var/tmp/vtl_2.deb"
done
in_root "$root" sh -c 'command -v rt || command -v clang || command -v gcc' || echo "no toolchain is there"

say "without systemd: installed, and started by hand"
in_root "$root" apt-get install -y /var/tmp/vtl_1.deb
in_root "$root" vtl --version
ls -l "$root/var/lib/vtl" "$root/etc/vtl"
sed -i "s,127.0.0.1:3260,127.0.0.1:$port=10.0.2.2:$port," "$root/etc/vtl/vtl.toml"
start_by_hand

say "a guest"
run_guest "$guest" "$trials/package_guest.sh"

say "the service that was started by hand: its end, its tapes and its records"
stop_by_hand
ls -l "$root/var/lib/vtl"
in_root "$root" vtl media check /var/lib/vtl
in_root "$root" vtl explain /var/log/vtl/records.json | tail -3

say "what came of it"
look_at_guest
[ "$(stat -c %s "$root/var/lib/vtl/VOL00001.tap")" -gt 1000000 ] || { echo "the tape is not there"; exit 1; }
echo "all is as it should be"
