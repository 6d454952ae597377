#!/bin/sh
# What the guest of trials/package.sh does, as root under its systemd: it writes and reads a tape at the machine outside, then at a service of
# its own, which it installs, looks at, upgrades, removes and purges. There a second host takes a drive over from the first one.
set -eu
tapes=/var/lib/vtl
trap '[ $? = 0 ] || { systemctl status vtl.service || true; journalctl -b -u vtl.service --no-pager | tail -30; dmesg | tail -20; echo "guest: failed"; }' EXIT

say() {
    echo "guest: $*"
}

# Logs in at a portal, and finds the changer and the drive that come.
log_in() {
    modprobe sg
    iscsiadm -m discovery -t sendtargets -p "$1"
    iscsiadm -m node -p "$1" --login
    for _ in $(seq 600); do
        changer=$(lsscsi -g | awk '$2 == "mediumx" { print $NF }')
        [ -z "$changer" ] || [ ! -c /dev/nst0 ] || break
        sleep 0.1
    done
    lsscsi -g
    # A unit reports to each host what happened before it came.
    for _ in 1 2 3 4; do sg_turs "$changer" >/dev/null 2>&1 || true; done
}

# Logs in once more, as another host: by an interface with a name of its own.
log_in_second() {
    iscsiadm -m iface -I second --op=new
    iscsiadm -m iface -I second --op=update -n iface.initiatorname -v iqn.2026-11.example:second
    iscsiadm -m discovery -t sendtargets -p 127.0.0.1:3260 -I second
    iscsiadm -m node -p 127.0.0.1:3260 -I second --login
    udevadm settle
}

# The SCSI generic devices of the first drive, a line for each session, in the order in which they came.
first_drives() {
    lsscsi -g | awk '$2 == "tape" && $1 ~ /:1]$/ { print $NF }'
}

# A WRITE(6) of a block of 512 bytes; status 24 is sg_raw's for a reservation conflict.
write_block() {
    sg_raw -s 512 -i /usr/sbin/mtx "$1" 0a 00 00 02 00 00
}

# What Prometheus would be answered.
metrics() {
    bash -c 'exec 3<>/dev/tcp/127.0.0.1/9100; printf "GET /metrics HTTP/1.1\r\nHost: vtl\r\nConnection: close\r\n\r\n" >&3; cat <&3'
}

log_out() {
    iscsiadm -m node --logout
    iscsiadm -m node -o delete
}

# Puts the volume of a storage element into the first drive, and writes a backup to it, of files that nothing here changes.
write_tape() {
    mtx -f "$changer" load "$1" 0
    tar -c -f /dev/nst0 -C / usr/lib/udev usr/sbin
}

read_tape() {
    mt -f /dev/nst0 rewind
    (cd / && tar -d -f /dev/nst0)
    say "the tape has what was written"
}

unload_tape() {
    mt -f /dev/nst0 offline
    mtx -f "$changer" unload "$1" 0
}

say "at the machine outside"
log_in 10.0.2.2:13260
mtx -f "$changer" status
write_tape 1
read_tape
unload_tape 1
log_out

say "the package, with systemd"
apt-get install -y /var/tmp/vtl_1.deb
vtl --version
systemctl is-enabled vtl.service
systemctl is-active vtl.service
systemd-analyze verify --man=no vtl.service
systemd-analyze security vtl.service --no-pager | tail -1
journalctl -b -u vtl.service --no-pager -o cat
log_in 127.0.0.1:3260
mtx -f "$changer" status
write_tape 1
read_tape
log_out

say "how it stands, and its records"
vtl status
grep -c '"class":"WRITE(6)"' /var/log/vtl/records.json
vtl explain /var/log/vtl/records.json | tail -3
mv /var/log/vtl/records.json /var/log/vtl/records.json.1
log_in 127.0.0.1:3260
until [ -s /var/log/vtl/records.json ]; do sleep 0.2; done
log_out

say "a takeover: a second host preempts the first one, and writes on"
sed -i 's/^# metrics/metrics/' /etc/vtl/vtl.toml
systemctl restart vtl.service
log_in 127.0.0.1:3260
unload_tape 1
mtx -f "$changer" load 2 0
log_in_second
holder=$(first_drives | head -1)
taker=$(first_drives | tail -1)
[ "$holder" != "$taker" ]
for each in "$holder" "$taker"; do
    for _ in 1 2 3 4; do sg_turs "$each" >/dev/null 2>&1 || true; done
done
sg_persist --out --register --param-sark=a1 "$holder"
sg_persist --out --reserve --param-rk=a1 --prout-type=3 "$holder"
refused=0
write_block "$taker" || refused=$?
[ $refused = 24 ]
sg_persist --out --register --param-sark=b2 "$taker"
sg_persist --out --preempt --param-rk=b2 --param-sark=a1 --prout-type=3 "$taker"
write_block "$taker"
for _ in 1 2 3; do sg_turs "$holder" >/dev/null 2>&1 || true; done
refused=0
write_block "$holder" || refused=$?
[ $refused = 24 ]
vtl status
# Records are taken at least once a second.
sleep 2
metrics | tee /root/metrics
grep -q '^vtl_records_total{class="WRITE(6)",.*status="18"} 2$' /root/metrics
grep -q '^vtl_reserved{unit="1"} 1$' /root/metrics
sg_persist --out --release --param-rk=b2 --prout-type=3 "$taker"
sg_persist --out --register --param-rk=b2 --param-sark=0 "$taker"
for _ in 1 2 3; do sg_turs "$holder" >/dev/null 2>&1 || true; done
unload_tape 2
mtx -f "$changer" load 1 0
log_out

say "an upgrade"
before=$(sha256sum $tapes/VOL00001.tap)
started=$(systemctl show -p MainPID vtl.service)
apt-get install -y /var/tmp/vtl_2.deb
vtl --version
systemctl is-active vtl.service
[ "$started" != "$(systemctl show -p MainPID vtl.service)" ]
[ "$before" = "$(sha256sum $tapes/VOL00001.tap)" ]
log_in 127.0.0.1:3260
read_tape
unload_tape 1
log_out
ls -l /run/vtl /var/log/vtl /etc/vtl $tapes

say "a restart by hand, and a stop"
systemctl restart vtl.service
systemctl stop vtl.service
[ "$(systemctl show -p ExecMainStatus vtl.service)" = ExecMainStatus=0 ]
systemctl start vtl.service

say "removed and purged"
before=$(cd $tapes && sha256sum ./*)
apt-get remove -y vtl
[ "$(systemctl is-active vtl.service)" != active ]
[ ! -e /usr/bin/vtl ] && [ -e /etc/vtl/chap ] && [ -e /etc/vtl/vtl.toml ]
[ "$before" = "$(cd $tapes && sha256sum ./*)" ] || say "the tapes changed when the service ended"
before=$(cd $tapes && sha256sum ./*)
apt-get purge -y vtl
[ ! -e /etc/vtl ] && [ ! -e /var/log/vtl ]
[ "$before" = "$(cd $tapes && sha256sum ./*)" ]
ls -l $tapes

say "installed again, with the same tapes"
apt-get install -y /var/tmp/vtl_2.deb
log_in 127.0.0.1:3260
mtx -f "$changer" load 1 0
read_tape
log_out
say "all is as it should be"
