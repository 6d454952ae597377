#!/bin/sh
# Hosts that know nothing of this program at `vtl serve --iscsi`: iscsi-ls and iscsi-inq of Debian's libiscsi-bin find the library, and
# trials/iscsi_host.c, which takes cc and libiscsi-dev, is two hosts that share its drive. Then logins by CHAP. What they print is
# compared with what stands here, also how many records each host has of each command; status 1 where something differs.
top=$(cd "$(dirname "$0")/.." && pwd) || exit 1
name=iqn.2026-11.localhost:vtl
host_a=iqn.2026-11.example:a
host_b=iqn.2026-11.example:b
for needed in cc iscsi-ls iscsi-inq; do
    command -v $needed >/dev/null || { echo "$0: $needed isn't there; Debian has it in gcc, libiscsi-bin" >&2; exit 1; }
done
work=$(mktemp -d) || exit 1
server=
trap '[ -z "$server" ] || kill "$server" 2>/dev/null; rm -rf "$work"' EXIT
trap 'exit 1' HUP INT TERM
cc -O2 -std=gnu11 -Wall -Wextra -o "$work/iscsi_host" "$top/trials/iscsi_host.c" -liscsi || exit 1
failed=0

# Serves a library at a port that the system chooses, with further options, until `stop`.
start() {
    : >"$work/told"
    "$top/vtl" serve --iscsi 127.0.0.1:0 --target-name $name --host $host_a=500000000000000a --host $host_b=500000000000000b \
        "$@" </dev/null >"$work/records" 2>"$work/told" &
    server=$!
    until grep -qs '^vtl: serving at ' "$work/told"; do
        if ! kill -0 "$server" 2>/dev/null; then
            cat "$work/told" >&2
            exit 1
        fi
        sleep 0.1
    done
    port=$(sed -n 's/^vtl: serving at .*127\.0\.0\.1:\([0-9]*\).*/\1/p' "$work/told")
}

stop() {
    kill -TERM "$server"
    wait "$server"
    status=$?
    server=
    if [ $status != 0 ]; then
        echo "the server ended with status $status:"
        cat "$work/told"
        failed=1
    fi
}

# Runs a command, prints what it prints, and compares that with standard input.
see() {
    cat >"$work/wanted"
    "$@" >"$work/all" 2>&1
    status=$?
    sed "s/:$port,/:PORT,/" "$work/all" >"$work/got"
    cat "$work/got"
    if [ $status = 0 ] && diff "$work/wanted" "$work/got" >"$work/difference"; then
        echo "as it should be"
    else
        echo "not as it should be; status $status"
        cat "$work/difference"
        failed=1
    fi
}

# shellcheck disable=SC2317 # it is called by `see`, as is the next
inquiry() {
    iscsi-inq -i "$host_a" "iscsi://127.0.0.1:$port/$name/$1" | grep -e '^Peripheral' -e '^Removable' -e '^Vendor' -e '^Product' -e '^Revision'
}

# How many records there are of each kind: who, what, status.
# shellcheck disable=SC2317
count_records() {
    awk '{ print $2, $3, $7 }' "$work/records" | LC_ALL=C sort | uniq -c | sed 's/^ *//'
}

start
echo "iscsi-ls:"
see iscsi-ls -i $host_a -s "iscsi://127.0.0.1:$port" <<END
Target:$name Portal:127.0.0.1:PORT,1
Lun:0    Type:MEDIA_CHANGER
Lun:1    Type:SEQUENTIAL_ACCESS (No media loaded)
END
echo "iscsi-inq at the drive:"
see inquiry 1 <<'END'
Peripheral Qualifier:CONNECTED
Peripheral Device Type:SEQUENTIAL_ACCESS
Removable:1
Vendor:VTLIB   
Product:TAPE DRIVE      
Revision:0001
END
stop
start
echo "two hosts at one drive:"
see "$work/iscsi_host" "127.0.0.1:$port" $name <<'END'
A: logs in; ImmediateData=Yes, InitialR2T=Yes
B: logs in; ImmediateData=No, InitialR2T=No
a stranger is refused
A: TEST UNIT READY at the changer: 02 700006000000000a00000000290000000000
A: INQUIRY at the changer: 00 - 088006021f00000056544c49422020204d454449554d204348414e474552202030303031
A: INQUIRY at the drive, into 255 bytes: 00 - U219 018006021f00000056544c49422020205441504520445249564520202020202030303031
A: INQUIRY at the drive, of which 8 bytes fit: 00 - O28 018006021f000000
A: INQUIRY where no unit is: 00 - 7f0006021f00000020202020202020202020202020202020202020202020202020202020
A: TEST UNIT READY where no unit is: 02 700005000000000a00000000250000000000
A: REPORT LUNS: 00 - U40 000000100000000000000000000000000001000000000000
A: MOVE MEDIUM: 00 -
A: READ ELEMENT STATUS of the drive: 00 - U187 010000010000003c0480003400000034010009000000000000000000564f4c30303030312020202020202020202020202020202020202020202020200000000000000000
A: TEST UNIT READY at the drive: 02 700006000000000a00000000290000000000
A: TEST UNIT READY at the drive: 02 700006000000000a00000000280000000000
B: TEST UNIT READY at the drive: 02 700006000000000a00000000290000000000
A: REGISTER: 00 -
B: REGISTER: 00 -
A: RESERVE, Write Exclusive: 00 -
A: WRITE(6) of 16 bytes: 00 -
A: WRITE(6) of 4096 bytes: 00 -
A: WRITE(6) of 65535 bytes: 00 -
A: WRITE(6) of 65536 bytes: 00 -
B: WRITE(6) of 16 bytes: 18 -
B: READ RESERVATION: 00 - U231 000000020000001000000000000000aa0000000000010000
B: READ FULL STATUS: 00 - U151 000000020000006000000000000000aa0000000001010000000000010000001806000000500000000000000a00000000000000000000000000000000000000bb0000000000000000000000010000001806000000500000000000000b000000000000000000000000
B: REWIND: 00 -
B: READ(6) of 16 bytes: 00 - 16 bytes, as they were written
B: READ(6) of 4096 bytes: 00 - 4096 bytes, as they were written
B: READ(6) of 65535 bytes: 00 - 65535 bytes, as they were written
B: READ(6) of 65536 bytes: 00 - 65536 bytes, as they were written
B: PREEMPT AND ABORT, Exclusive Access: 00 -
A: WRITE(6) of 16 bytes: 18 -
A: TEST UNIT READY at the drive: 02 700006000000000a000000002a0500000000
A: READ(6) of 16 bytes: 18 - U16 no bytes
B: REWIND: 00 -
B: WRITE(6) of 16 bytes: 00 -
B: WRITE(6) of 4096 bytes: 00 -
B: WRITE(6) of 65535 bytes: 00 -
B: WRITE(6) of 65536 bytes: 00 -
B: REWIND: 00 -
B: READ(6) of 16 bytes: 00 - 16 bytes, as they were written
B: READ(6) of 4096 bytes: 00 - 4096 bytes, as they were written
B: READ(6) of 65535 bytes: 00 - 65535 bytes, as they were written
B: READ(6) of 65536 bytes: 00 - 65536 bytes, as they were written
B: READ(6) of 16 bytes: 02 f00008000000100a00000000000500000000 U16 no bytes
B: REWIND: 00 -
B: READ(6) of 20 bytes: 02 f00020000000040a00000000000000000000 U4 16 bytes, as they were written
B: READ(6) of 16 bytes: 02 f00020fffff0100a00000000000000000000 16 bytes, as they were written
B: READ(6) of 65536 bytes: 02 f00020000000010a00000000000000000000 U1 65535 bytes, as they were written
B: WRITE(6) of 65537 bytes: 02 700005000000000a00000000240000000000
B: 100 TEST UNIT READY at once: 100 are GOOD
B: NOP-Out: its data came back
B: ABORT TASK of none: response 1
B: CLEAR ACA: response 5
B: LOGICAL UNIT RESET where no unit is: response 2
B: LOGICAL UNIT RESET at the drive: response 0
A: TEST UNIT READY at the drive: 02 700006000000000a00000000290300000000
B: TEST UNIT READY at the drive: 02 700006000000000a00000000290300000000
A: logs out
A: logs in; ImmediateData=No, InitialR2T=Yes
A: TEST UNIT READY at the drive: 02 700006000000000a00000000290700000000
A: WRITE(6) of 4096 bytes: 18 -
B: RELEASE, Exclusive Access: 00 -
A: WRITE(6) of 16 bytes: 00 -
A: WRITE(6) of 4096 bytes: 00 -
A: WRITE(6) of 65535 bytes: 00 -
A: WRITE(6) of 65536 bytes: 00 -
A: WRITE FILEMARKS(6): 00 -
B: REWIND: 00 -
B: READ(6) of 16 bytes: 00 - 16 bytes, as they were written
B: READ(6) of 4096 bytes: 00 - 4096 bytes, as they were written
B: READ(6) of 65535 bytes: 00 - 65535 bytes, as they were written
B: READ(6) of 65536 bytes: 00 - 65536 bytes, as they were written
B: READ(6) of 16 bytes: 02 f00080000000100a00000000000100000000 U16 no bytes
A: logs out
B: logs out
END
stop
# A logs out twice, and is lost at both units each time; B has met the drive alone. What was sent where no unit is has no record.
echo "their records:"
see count_records <<'END'
1 - MEDIUM-IN 00
1 - RESET 00
3 500000000000000a.1 INQUIRY 00
4 500000000000000a.1 LOSS 00
1 500000000000000a.1 MOVE-MEDIUM 00
1 500000000000000a.1 READ(6) 18
1 500000000000000a.1 READ-ELEMENT-STATUS 00
1 500000000000000a.1 REGISTER 00
1 500000000000000a.1 REPORT-LUNS 00
1 500000000000000a.1 RESERVE 00
6 500000000000000a.1 TEST-UNIT-READY 02
8 500000000000000a.1 WRITE(6) 00
2 500000000000000a.1 WRITE(6) 18
1 500000000000000a.1 WRITE-FILEMARKS(6) 00
1 500000000000000b.1 LOSS 00
2 500000000000000b.1 PR-IN 00
1 500000000000000b.1 PREEMPT-ABORT 00
12 500000000000000b.1 READ(6) 00
5 500000000000000b.1 READ(6) 02
1 500000000000000b.1 REGISTER 00
1 500000000000000b.1 RELEASE 00
5 500000000000000b.1 REWIND 00
100 500000000000000b.1 TEST-UNIT-READY 00
2 500000000000000b.1 TEST-UNIT-READY 02
4 500000000000000b.1 WRITE(6) 00
1 500000000000000b.1 WRITE(6) 02
1 500000000000000b.1 WRITE(6) 18
END
printf '%s\n' "$host_a anna secret-of-host-a library secret-of-target" "$host_b bert secret-of-host-b" >"$work/chap"
chmod 600 "$work/chap"
start --chap "$work/chap"
echo "logins by CHAP:"
see "$work/iscsi_host" "127.0.0.1:$port" $name chap <<'END'
A, with its secret: let in
B, with its secret: let in
A, with another secret: refused
A, with B's user and secret: refused
A, without any: refused
A, which has the target prove itself: let in
A, which expects another secret of the target: refused
B, which asks for a proof that the target hasn't: refused
END
stop
exit $failed
