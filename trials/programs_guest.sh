#!/bin/sh
# What the guest of trials/programs.sh does, as root: it logs in at two libraries for hosts, and uses them by programs of Debian that know nothing
# of this one. What a program prints is shown, and what it has to say is looked for.
set -u
# shellcheck source=trials/in_guest.sh
. /root/in_guest.sh

load_drivers
log_in 10.0.2.2:13260
log_in 10.0.2.2:13261
await_devices /dev/nst3 /dev/sch1
changer=$(generic_of 1A2B3C4D00)
drive=$(generic_of 1A2B3C4D01)
other=$(generic_of 0000BEEF00)
say "changer $changer, drive $drive, the other changer $other"
hear_attentions "$changer" "$drive" "$other"
tape=$(tape_of 1A2B3C4D01)
say "tape $tape"

see lsscsi -g -u </dev/null
see ls -l /dev/tape/by-id <<'END'
1A2B3C4D
0000BEEF
END
dmesg | grep -i "ID/LUN unknown" && { say "the kernel does not find a drive"; failed=1; }

see sg_inq "$drive" <<'END'
Vendor identification: VTLIB
Product identification: TAPE DRIVE
Unit serial number: 1A2B3C4D01
END
see sg_vpd -a "$drive" <<'END'
Device Identification VPD page
extended INQUIRY data VPD page
Mode page policy VPD page
END
see sg_vpd -a "$changer" <<'END'
Device Identification VPD page
END
see mtx -f "$changer" load 2 0 </dev/null
see mtx -f "$changer" load 1 1 </dev/null
see mtx -f "$changer" status <<'END'
Data Transfer Element 0:Full (Storage Element 2 Loaded):VolumeTag = VOL00002
Data Transfer Element 1:Full (Storage Element 1 Loaded):VolumeTag = VOL00001
END
see mtx -f "$changer" position 3 </dev/null
see sg_raw "$changer" 37 00 04 00 00 00 00 01 00 00 </dev/null
# Both drives tell of their volumes first.
for each in 1 2; do sg_turs "$drive" >/dev/null 2>&1 || true; done
see sg_turs "$drive" </dev/null
see mt -f "$tape" status </dev/null
see sh -c "tar -c -b 20 -f $tape -C / usr/sbin && tar -c -b 20 -f $tape -C / usr/lib/udev" </dev/null
see mt -f "$tape" tell <<'END'
At block
END
at=$(sed -n 's/^At block \([0-9]*\)\.$/\1/p' /root/got)
see mt -f "$tape" rewind </dev/null
see mt -f "$tape" fsf 1 </dev/null
see mt -f "$tape" tell </dev/null
second=$(sed -n 's/^At block \([0-9]*\)\.$/\1/p' /root/got)
say "the second archive begins at $second, and ends at $at"
see mt -f "$tape" seek 0 </dev/null
see sh -c "cd / && tar -d -b 20 -f $tape" </dev/null
see mt -f "$tape" seek "$second" </dev/null
see sh -c "cd / && tar -d -b 20 -f $tape" </dev/null
see mt -f "$tape" compression 0 </dev/null
see mt -f "$tape" compression 1 </dev/null
see tapeinfo -f "$drive" <<'END'
SerialNumber: '1A2B3C4D01'
DataCompEnabled: yes
DataCompCapable: yes
DataDeCompEnabled: yes
END
see loaderinfo -f "$changer" <<'END'
Bar Code Reader: Yes
END
see sg_modes -a "$drive" <<'END'
Data Compression
Device configuration
Medium Partition
END
see sg_modes -a "$changer" </dev/null
see sg_logs -a "$drive" <<'END'
Supported log pages
Write error counter page
Sequential access device page
END
see sg_logs --page=0x2e "$changer" </dev/null
see sg_opcodes "$drive" <<'END'
Log sense
Persistent reserve in, read keys
END
see sg_opcodes -t "$drive" </dev/null
# sdparm asks for subpage 01h of page 10h, and smartctl for a log of self-tests.
see_any 5 sdparm -a "$drive" <<'END'
DCE           1  [cha: y, def:  1]
GLTSD         1  [cha: n, def:  1]
END
see_any 4 smartctl -a "$drive" <<'END'
Serial number:        1A2B3C4D01
TapeAlert Supported
END
see_any 4 smartctl -a "$changer" <<'END'
Serial number:        1A2B3C4D00
TapeAlert Supported
END
see smartctl -H -H "$drive" <<'END'
TapeAlert: OK
END
see sg_senddiag --test "$drive" </dev/null
# Blocks of 1 MiB, and blocks of 512 bytes, of which a command transfers 1 MiB.
head -c 8388608 /dev/urandom >/root/written
see mt -f "$tape" rewind </dev/null
see sh -c "tar -c -b 2048 -f $tape -C / usr/bin" </dev/null
see mt -f "$tape" rewind </dev/null
see sh -c "cd / && tar -d -b 2048 -f $tape" </dev/null
for each in 0 512; do
    see mt -f "$tape" rewind </dev/null
    see mt -f "$tape" setblk $each </dev/null
    see dd if=/root/written of="$tape" bs=1M </dev/null
    see mt -f "$tape" rewind </dev/null
    see dd if="$tape" of=/root/read bs=1M <<'END'
8+0 records in
END
    see cmp /root/written /root/read </dev/null
done
see mt -f "$tape" setblk 0 </dev/null
see mt -f "$tape" offline </dev/null
see_failing mt -f "$tape" fsf 1 <<'END'
No medium found
END
see mtx -f "$changer" unload <<'END'
Unloading drive 0 into Storage Element 2...done
END
see mtx -f "$changer" unload 1 1 </dev/null
see mtx -f "$changer" status <<'END'
Data Transfer Element 0:Empty
Storage Element 1:Full :VolumeTag=VOL00001
Storage Element 2:Full :VolumeTag=VOL00002
END
see mtx -f "$changer" exchange 1 2 </dev/null
see mtx -f "$changer" status <<'END'
Storage Element 1:Full :VolumeTag=VOL00002
Storage Element 2:Full :VolumeTag=VOL00001
END
iscsiadm -m node --logout
[ $failed = 0 ] && say "all is as it should be"
