# shellcheck shell=sh disable=SC2034
# For scripts that a guest of a trial runs: they set failed to 1 where something isn't as it should be.
failed=0

say() {
    echo "guest: $*"
}

# Runs a command, shows what it prints, and looks for each line that standard input has, as it stands.
see() {
    wanted=$(cat)
    echo "guest> $*"
    "$@" >/root/got 2>&1
    status=$?
    cat /root/got
    [ $status = 0 ] || { say "status $status of: $*"; failed=1; }
    echo "$wanted" | while IFS= read -r line; do
        [ -z "$line" ] || grep -qF -- "$line" /root/got || say "not there: $line"
    done >/root/missing
    [ ! -s /root/missing ] || { cat /root/missing; failed=1; }
}

# The same of a program that ends with a status of its own, as it asks for what few units have.
see_any() {
    status_wanted=$1
    shift
    echo "guest> $*"
    "$@" >/root/got 2>&1
    status=$?
    cat /root/got
    [ $status = "$status_wanted" ] || { say "status $status of: $*"; failed=1; }
    while IFS= read -r line; do
        grep -qF -- "$line" /root/got || say "not there: $line"
    done >/root/missing
    [ ! -s /root/missing ] || { cat /root/missing; failed=1; }
}

# The same of a command that has to fail.
see_failing() {
    wanted=$(cat)
    echo "guest> $*"
    "$@" >/root/got 2>&1 && { say "it didn't fail: $*"; failed=1; }
    cat /root/got
    [ -z "$wanted" ] || grep -qF -- "$wanted" /root/got || { say "not there: $wanted"; failed=1; }
}

log_in() {
    iscsiadm -m discovery -t sendtargets -p "$1"
    iscsiadm -m node -p "$1" --login
}

# Loads the drivers of tapes and changers.
load_drivers() {
    modprobe sg
    modprobe st
    modprobe ch
}

# Asks units, each until it has reported what happened before this host came.
hear_attentions() {
    for each in "$@"; do
        for _ in 1 2 3 4; do sg_turs "$each" >/dev/null 2>&1 || true; done
    done
}

# Fills folders with files that no compression would shrink, of many sizes.
make_files() {
    mkdir -p /data /restored
    for each in $(seq 60); do head -c $((each * 52428 + each)) /dev/urandom >"/data/file_$each"; done
    cp -a /etc /data/etc
    du -sm /data
}

# The SCSI generic device of the changer, or of drive N, of the library with a number.
generic_of() {
    for each in /dev/sg*; do
        sg_inq --page=sn "$each" 2>/dev/null | grep -q "$1" && echo "$each"
    done
}

# The tape that doesn't rewind, of the drive with a serial number.
tape_of() {
    for each in /dev/nst[0-9]; do
        [ "$(tr -d '\0' <"/sys/class/scsi_tape/${each#/dev/}/device/vpd_pg80" 2>/dev/null | grep -c "$1")" = 0 ] || echo "$each"
    done
}

# Waits for the last tape and the last changer that logins bring.
await_devices() {
    for _ in $(seq 600); do
        [ -c "$1" ] && [ -c "$2" ] && break
        sleep 0.1
    done
    udevadm settle
}
