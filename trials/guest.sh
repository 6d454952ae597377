# shellcheck shell=sh disable=SC2034,SC2154
# For trials that a Linux guest runs, read by them with `.`: a Debian that debootstrap makes, and a guest of it in an emulator. They set
# `trials`, this folder. Their argument, if there is one, is a folder where the packed root is kept for the next run.
top=${trials%/*}
packages=systemd-sysv,udev,dbus,kmod,initramfs-tools,linux-image-amd64,open-iscsi,mtx,mt-st,lsscsi,sg3-utils,iproute2
work=$(mktemp -d)
kept=${1:-$work}
guest=$work/guest
# The processes that end with the trial.
servers=
trap '[ -z "$servers" ] || kill $servers; rm -rf "$work"' EXIT
trap 'exit 1' HUP INT TERM

say() {
    echo "== $*"
}

# Unpacks a new Debian in each of the folders.
make_roots() {
    if [ ! -e "$kept/root.tar" ]; then
        debootstrap --variant=minbase --include="$packages" bookworm "$kept/fresh" http://deb.debian.org/debian >"$work/debootstrap" || {
            tail "$work/debootstrap"
            exit 1
        }
        rm -f "$kept/fresh"/var/cache/apt/archives/*.deb
        tar -c -f "$kept/root.tar" -C "$kept/fresh" .
        rm -rf "$kept/fresh"
    fi
    for each in "$@"; do
        mkdir "$each"
        tar -x -f "$kept/root.tar" -C "$each"
    done
}

# Installs packages in a root, without those that are only recommended, and of alternatives the ones that are named.
install_in() {
    root=$1
    shift
    chroot "$root" env DEBIAN_FRONTEND=noninteractive apt-get install -y --no-install-recommends "$@" >"$work/installed" 2>&1 || {
        tail "$work/installed"
        exit 1
    }
}

# Serves a library for hosts at a port that a guest reaches, with a number and further options.
serve() {
    port=$1
    number=$2
    shift 2
    "$top/vtl" serve --iscsi "127.0.0.1:$port=10.0.2.2:$port" --target-name "iqn.2026-11.localhost:$number" --any-host --profile hosts \
        --library-id "$number" --records "$work/records_$number" "$@" </dev/null 2>"$work/told_$number" &
    servers="$servers $!"
    until grep -qs '^vtl: serving at ' "$work/told_$number"; do
        kill -0 $! 2>/dev/null || { cat "$work/told_$number"; exit 1; }
        sleep 0.1
    done
    cat "$work/told_$number"
}

# Has a guest with a root do what a script says, and shows what it prints. 10.0.2.2 is this machine there.
run_guest() {
    cp "$2" "$1/root/guest.sh"
    cp "$trials/in_guest.sh" "$1/root/in_guest.sh"
    cat >"$1/etc/systemd/system/trial.service" <<'END'
[Unit]
After=multi-user.target

[Service]
Type=oneshot
ExecStart=/bin/sh -c 'exec /bin/sh /root/guest.sh >/dev/ttyS0 2>&1'
ExecStopPost=/bin/systemctl poweroff --no-block

[Install]
WantedBy=graphical.target
END
    printf '[Match]\nName=e*\n\n[Network]\nAddress=10.0.2.15/24\n' >"$1/etc/systemd/network/guest.network"
    # A login prompt on the console would end what is said there.
    ln -s /dev/null "$1/etc/systemd/system/serial-getty@ttyS0.service"
    # A guest without KVM may be too slow for the five seconds in which an answer to a ping has to come.
    sed -i 's/^\(node.conn.0..timeo.noop_out_[a-z]* = \).*/\10/' "$1/etc/iscsi/iscsid.conf"
    chroot "$1" /usr/bin/systemctl enable systemd-networkd.service trial.service
    chroot "$1" /usr/bin/systemctl set-default graphical.target
    mkfs.ext4 -q -d "$1" "$work/disk" 4G
    timeout 3000 qemu-system-x86_64 -accel tcg -cpu max -m 2G -smp 2 -display none -serial stdio -monitor none -no-reboot \
        -kernel "$1/vmlinuz" -initrd "$1/initrd.img" -append "root=/dev/vda rw console=ttyS0" \
        -drive "file=$work/disk,if=virtio,format=raw" -nic user,model=virtio-net-pci </dev/null | stdbuf -oL tr -d '\r' | tee "$work/guest_log"
}

# Ends the trial unless the guest's script found all as it should be. Shows how often each class of command was asked for, by the records of the
# libraries that were served here.
look_at_guest() {
    cat "$work"/records_* 2>/dev/null | sed -n 's/.*"class":"\([^"]*\)".*/\1/p' | sort | uniq -c | sort -rn
    grep -q '^guest: all is as it should be$' "$work/guest_log" || {
        echo "the guest failed"
        exit 1
    }
}
