#!/bin/sh
# What the guest of trials/amanda.sh does, as root: Amanda labels four tapes of 64 MiB by their tags, writes some 90 MiB to them without a disk
# between, in blocks of 1 MiB, and goes on to the next tape where the drive warns that the end is near. What it fetches from them is compared.
set -u
# shellcheck source=trials/in_guest.sh
. /root/in_guest.sh

# Amanda's own settings: the library as a robot with both drives, one folder, which goes straight to the tapes in parts that are kept nowhere else.
write_settings() {
    mkdir -p /etc/amanda/trial /var/lib/amanda/trial/info /var/lib/amanda/trial/index /var/lib/amanda/trial/log
    cat >/etc/amanda/trial/amanda.conf <<END
org "trial"
dumpuser "backup"
infofile "/var/lib/amanda/trial/info"
logdir "/var/lib/amanda/trial/log"
indexdir "/var/lib/amanda/trial/index"
tapelist "/var/lib/amanda/trial/tapelist"
dumpcycle 1 day
runspercycle 1
tapecycle 4 tapes
runtapes 2
labelstr "VOL0000[1-4]"
tpchanger "library"
define changer library {
    tpchanger "chg-robot:$changer"
    property "tape-device" "0=tape:$(tape_of 1A2B3C4D01)"
    property append "tape-device" "1=tape:$(tape_of 1A2B3C4D02)"
    property "use-slots" "1-4"
    device-property "LEOM" "TRUE"
    changerfile "/var/lib/amanda/trial/changer"
}
define tapetype VTL {
    length 60 mbytes
    filemark 0 kbytes
    blocksize 1024 kbytes
    part-size 16 mbytes
    part-cache-type none
}
tapetype VTL
define dumptype straight {
    auth "local"
    program "GNUTAR"
    compress none
    index yes
    holdingdisk never
}
END
    echo 'localhost /data straight' >/etc/amanda/trial/disklist
    touch /var/lib/amanda/trial/tapelist
    chown -R backup:backup /etc/amanda /var/lib/amanda
}

# Does something as Amanda's user.
as_amanda() {
    runuser -u backup -- "$@"
}

load_drivers
log_in 10.0.2.2:13280
await_devices /dev/nst1 /dev/sch0
changer=$(generic_of 1A2B3C4D00)
hear_attentions /dev/sg*
say "changer $changer, tapes $(tape_of 1A2B3C4D01) and $(tape_of 1A2B3C4D02)"
ls -l "$changer" /dev/nst*

make_files

write_settings
say "tapes get Amanda's labels"
for each in 1 2 3 4; do see as_amanda amlabel trial "VOL0000$each" slot "$each" </dev/null; done
see as_amanda amtape trial show </dev/null
see as_amanda amcheck -t trial </dev/null
say "a backup"
see as_amanda amdump trial </dev/null
cat /var/lib/amanda/trial/log/log.*
grep -h '^SUCCESS taper\|^DONE taper' /var/lib/amanda/trial/log/log.* | grep -q . || { say "the backup failed"; failed=1; }
[ "$(grep -h '^PART taper' /var/lib/amanda/trial/log/log.* | awk '{ print $5 }' | sort -u | wc -l)" -ge 2 ] || { say "it went on to no other tape"; failed=1; }
grep -h 'PARTPARTIAL' /var/lib/amanda/trial/log/log.* && { say "a part was begun anew"; failed=1; }
say "fetched"
as_amanda amfetchdump -p trial localhost /data </dev/null >/root/fetched.tar 2>/root/fetching || { say "nothing was fetched"; failed=1; }
cat /root/fetching
tar -x -f /root/fetched.tar -C /restored || { say "no archive was fetched"; failed=1; }
diff -r --no-dereference /data /restored || { say "what was fetched differs"; failed=1; }
mtx -f "$changer" status
iscsiadm -m node --logout
[ $failed = 0 ] && say "all is as it should be"
