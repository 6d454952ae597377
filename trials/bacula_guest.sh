#!/bin/sh
# What the guest of trials/bacula.sh does, as root: Bacula labels four tapes of 64 MiB by their tags, writes a backup of some 90 MiB, which goes on
# from one tape to the next, restores it into a folder of its own, and the two are compared.
set -u
# shellcheck source=trials/in_guest.sh
. /root/in_guest.sh

# Bacula's own settings: one director, one storage daemon with both drives of the library, one client.
write_settings() {
    cat >/etc/bacula/bacula-sd.conf <<END
Storage { Name = trial-sd; SDPort = 9103; SDAddress = 127.0.0.1; WorkingDirectory = /var/lib/bacula; Pid Directory = /run/bacula }
Director { Name = trial-dir; Password = "trial" }
Messages { Name = Standard; director = trial-dir = all }
Autochanger {
    Name = library; Device = drive-0, drive-1
    Changer Device = $changer; Changer Command = "/etc/bacula/scripts/mtx-changer %c %o %S %a %d"
}
END
    for each in 0 1; do
        cat >>/etc/bacula/bacula-sd.conf <<END
Device {
    Name = drive-$each; Drive Index = $each; Media Type = vtl; Autochanger = yes
    Archive Device = $(tape_of "1A2B3C4D0$((each + 1))"); Control Device = $(generic_of "1A2B3C4D0$((each + 1))")
    Alert Command = "/etc/bacula/scripts/tapealert %l"
    AutomaticMount = yes; AlwaysOpen = yes; RemovableMedia = yes; RandomAccess = no; Maximum Block Size = $block
}
END
    done
    cat >/etc/bacula/bacula-fd.conf <<END
FileDaemon { Name = trial-fd; FDport = 9102; FDAddress = 127.0.0.1; WorkingDirectory = /var/lib/bacula; Pid Directory = /run/bacula }
Director { Name = trial-dir; Password = "trial" }
Messages { Name = Standard; director = trial-dir = all }
END
    cat >/etc/bacula/bconsole.conf <<END
Director { Name = trial-dir; DIRport = 9101; Address = 127.0.0.1; Password = "trial" }
END
    cat >/etc/bacula/bacula-dir.conf <<END
Director {
    Name = trial-dir; DIRport = 9101; DirAddress = 127.0.0.1; Password = "trial"; Messages = Standard
    QueryFile = "/etc/bacula/scripts/query.sql"; WorkingDirectory = /var/lib/bacula; PidDirectory = /run/bacula
}
Catalog { Name = catalog; dbname = bacula; dbuser = ""; dbpassword = "" }
Messages { Name = Standard; console = all; append = "/root/bacula.log" = all }
FileSet { Name = set; Include { Options { signature = SHA1 }; File = /data } }
Client { Name = trial-fd; Address = 127.0.0.1; FDPort = 9102; Catalog = catalog; Password = "trial" }
Storage { Name = library; Address = 127.0.0.1; SDPort = 9103; Password = "trial"; Device = library; Media Type = vtl; Autochanger = yes }
Pool { Name = tapes; Pool Type = Backup }
Schedule { Name = never }
Job { Name = backup; Type = Backup; Level = Full; Client = trial-fd; FileSet = set; Storage = library; Pool = tapes; Messages = Standard }
Job { Name = restore; Type = Restore; Client = trial-fd; FileSet = set; Storage = library; Pool = tapes; Messages = Standard; Where = /restored }
END
}

# What the console does with lines of standard input.
console() {
    bconsole -c /etc/bacula/bconsole.conf
}

# The largest block that drives take.
block=$((1024 * 1024))
load_drivers
log_in 10.0.2.2:13270
await_devices /dev/nst1 /dev/sch0
changer=$(generic_of 1A2B3C4D00)
systemctl stop bacula-director bacula-sd bacula-fd 2>/dev/null
hear_attentions /dev/sg*
say "changer $changer, tapes $(tape_of 1A2B3C4D01) and $(tape_of 1A2B3C4D02)"

mkdir -p /run/bacula
make_files

write_settings
bacula-sd -c /etc/bacula/bacula-sd.conf
bacula-fd -c /etc/bacula/bacula-fd.conf
bacula-dir -c /etc/bacula/bacula-dir.conf
for _ in $(seq 100); do echo quit | console >/dev/null 2>&1 && break; sleep 0.2; done

say "tapes get Bacula's labels, by their tags"
printf 'label barcodes storage=library drive=0 pool=tapes slots=1-4\nyes\nlist volumes\nquit\n' | console | tee /root/labelled
grep -q VOL00004 /root/labelled || { say "not all are labelled"; failed=1; }
say "a backup"
printf 'run job=backup yes\nwait\nmessages\nlist jobs\nlist volumes\nquit\n' | console | tee /root/saved
grep -q 'Termination: *Backup OK' /root/saved || { say "the backup failed"; failed=1; }
[ "$(grep -c 'End of medium\|End of Volume' /root/saved)" != 0 ] || { say "it went on to no other tape"; failed=1; }
say "restored"
printf 'restore client=trial-fd where=/restored select all done yes\nwait\nmessages\nquit\n' | console | tee /root/restored
grep -q 'Termination: *Restore OK' /root/restored || { say "the restore failed"; failed=1; }
diff -r --no-dereference /data /restored/data || { say "what was restored differs"; failed=1; }
mtx -f "$changer" status
tail -40 /root/bacula.log
iscsiadm -m node --logout
[ $failed = 0 ] && say "all is as it should be"
