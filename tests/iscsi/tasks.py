"""Task management, before the data of a write come: each function is immediate, with the CmdSN that is expected next, where nothing else is
said."""
from pdus import (
    ABORT_TASK, ABORT_TASK_SET, CHANGER, CLEAR_ACA, CLEAR_TASK_SET, COLD_RESET, COMPLETE, FLAT_DRIVE, NOWHERE, NO_LUN, NO_TASK, REASSIGN,
    REASSIGNMENT, TWO_LEVELS, UNIT_RESET, UNSUPPORTED, WARM_RESET, data_out, good, manage, managed, wanted, write)
from scenes import RESET, WRITE, Scene, Table, begins, gets, sends, under

SCENES = [
    *under(
        "the data of a write are asked for",
        Scene("a write that waits", [
            *begins(),
            sends(write(2, 1, 8), data_out(2, b"\x01\x02\x03\x04\x05\x06\x07\x08")),
            gets(wanted(2, (3, 2, 32), 8), good(2, (3, 2, 33)))], drive=[WRITE], tape=b"\x01\x02\x03\x04\x05\x06\x07\x08")),
    *under(
        "task management is answered at once",
        Scene("functions behind a write that waits", [
            *begins(),
            sends(
                write(2, 1, 8), manage(ABORT_TASK, 2, of=2), manage(ABORT_TASK, 2, of=2, tag=4),
                manage(UNIT_RESET, 2, of=0, lun=CHANGER, tag=5), manage(UNIT_RESET, 2, of=0, lun=NOWHERE, tag=6),
                manage(CLEAR_ACA, 2, of=0, tag=7), manage(REASSIGN, 2, of=2, tag=8)),
            gets(
                wanted(2, (3, 2, 32), 8), managed(COMPLETE, (3, 2, 33)), managed(NO_TASK, (4, 2, 33), 4),
                managed(COMPLETE, (5, 2, 33), 5), managed(NO_LUN, (6, 2, 33), 6), managed(UNSUPPORTED, (7, 2, 33), 7),
                managed(REASSIGNMENT, (8, 2, 33), 8))], changer=[RESET], tape=b"")),
    *under(
        "each function has its response",
        Scene("ABORT TASK", [
            *begins(),
            sends(write(2, 1), manage(ABORT_TASK, 2, of=2), data_out(2, b"abcd")),
            gets(wanted(2, (3, 2, 32)), managed(COMPLETE, (3, 2, 33)))], tape=b""),
        Scene("ABORT TASK, no task", [
            *begins(),
            sends(write(2, 1), manage(ABORT_TASK, 2, of=9), data_out(2, b"abcd")),
            gets(wanted(2, (3, 2, 32)), managed(NO_TASK, (3, 2, 32)), good(2, (4, 2, 33)))], drive=[WRITE], tape=b"abcd"),
        Scene("ABORT TASK elsewhere", [
            *begins(),
            sends(write(2, 1), manage(ABORT_TASK, 2, of=2, lun=CHANGER), data_out(2, b"abcd")),
            gets(wanted(2, (3, 2, 32)), managed(NO_TASK, (3, 2, 32)), good(2, (4, 2, 33)))], drive=[WRITE], tape=b"abcd"),
        Scene("ABORT TASK, no task elsewhere", [
            *begins(),
            sends(write(2, 1), manage(ABORT_TASK, 2, of=9, lun=CHANGER), data_out(2, b"abcd")),
            gets(wanted(2, (3, 2, 32)), managed(NO_TASK, (3, 2, 32)), good(2, (4, 2, 33)))], drive=[WRITE], tape=b"abcd"),
        Scene("ABORT TASK, flat LUN", [
            *begins(),
            sends(write(2, 1), manage(ABORT_TASK, 2, of=2, lun=FLAT_DRIVE), data_out(2, b"abcd")),
            gets(wanted(2, (3, 2, 32)), managed(COMPLETE, (3, 2, 33)))], tape=b""),
        Scene("ABORT TASK, no unit", [
            *begins(),
            sends(write(2, 1), manage(ABORT_TASK, 2, of=2, lun=NOWHERE), data_out(2, b"abcd")),
            gets(wanted(2, (3, 2, 32)), managed(NO_LUN, (3, 2, 32)), good(2, (4, 2, 33)))], drive=[WRITE], tape=b"abcd"),
        Scene("ABORT TASK, two levels", [
            *begins(),
            sends(write(2, 1), manage(ABORT_TASK, 2, of=2, lun=TWO_LEVELS), data_out(2, b"abcd")),
            gets(wanted(2, (3, 2, 32)), managed(NO_LUN, (3, 2, 32)), good(2, (4, 2, 33)))], drive=[WRITE], tape=b"abcd"),
        Scene("ABORT TASK SET", [
            *begins(),
            sends(write(2, 1), manage(ABORT_TASK_SET, 2), data_out(2, b"abcd")),
            gets(wanted(2, (3, 2, 32)), managed(COMPLETE, (3, 2, 33)))], tape=b""),
        Scene("ABORT TASK SET, flat LUN", [
            *begins(),
            sends(write(2, 1), manage(ABORT_TASK_SET, 2, lun=FLAT_DRIVE), data_out(2, b"abcd")),
            gets(wanted(2, (3, 2, 32)), managed(COMPLETE, (3, 2, 33)))], tape=b""),
        Scene("ABORT TASK SET elsewhere", [
            *begins(),
            sends(write(2, 1), manage(ABORT_TASK_SET, 2, lun=CHANGER), data_out(2, b"abcd")),
            gets(wanted(2, (3, 2, 32)), managed(COMPLETE, (3, 2, 32)), good(2, (4, 2, 33)))], drive=[WRITE], tape=b"abcd"),
        Scene("ABORT TASK SET, no unit", [
            *begins(),
            sends(write(2, 1), manage(ABORT_TASK_SET, 2, lun=NOWHERE), data_out(2, b"abcd")),
            gets(wanted(2, (3, 2, 32)), managed(NO_LUN, (3, 2, 32)), good(2, (4, 2, 33)))], drive=[WRITE], tape=b"abcd"),
        Scene("ABORT TASK SET, two levels", [
            *begins(),
            sends(write(2, 1), manage(ABORT_TASK_SET, 2, lun=TWO_LEVELS), data_out(2, b"abcd")),
            gets(wanted(2, (3, 2, 32)), managed(NO_LUN, (3, 2, 32)), good(2, (4, 2, 33)))], drive=[WRITE], tape=b"abcd")),
    *under(
        "each function of a unit has its response",
        Scene("CLEAR ACA", [
            *begins(),
            sends(write(2, 1), manage(CLEAR_ACA, 2), data_out(2, b"abcd")),
            gets(wanted(2, (3, 2, 32)), managed(UNSUPPORTED, (3, 2, 32)), good(2, (4, 2, 33)))], drive=[WRITE], tape=b"abcd"),
        Scene("CLEAR TASK SET", [
            *begins(),
            sends(write(2, 1), manage(CLEAR_TASK_SET, 2), data_out(2, b"abcd")),
            gets(wanted(2, (3, 2, 32)), managed(UNSUPPORTED, (3, 2, 32)), good(2, (4, 2, 33)))], drive=[WRITE], tape=b"abcd"),
        Scene("LOGICAL UNIT RESET", [
            *begins(),
            sends(write(2, 1), manage(UNIT_RESET, 2), data_out(2, b"abcd")),
            gets(wanted(2, (3, 2, 32)), managed(COMPLETE, (3, 2, 33)))], drive=[RESET], tape=b""),
        Scene("LOGICAL UNIT RESET elsewhere", [
            *begins(),
            sends(write(2, 1), manage(UNIT_RESET, 2, lun=CHANGER), data_out(2, b"abcd")),
            gets(wanted(2, (3, 2, 32)), managed(COMPLETE, (3, 2, 32)), good(2, (4, 2, 33)))],
            drive=[WRITE], changer=[RESET], tape=b"abcd"),
        Scene("LOGICAL UNIT RESET, no unit", [
            *begins(),
            sends(write(2, 1), manage(UNIT_RESET, 2, lun=NOWHERE), data_out(2, b"abcd")),
            gets(wanted(2, (3, 2, 32)), managed(NO_LUN, (3, 2, 32)), good(2, (4, 2, 33)))], drive=[WRITE], tape=b"abcd"),
        Scene("LOGICAL UNIT RESET, two levels", [
            *begins(),
            sends(write(2, 1), manage(UNIT_RESET, 2, lun=TWO_LEVELS), data_out(2, b"abcd")),
            gets(wanted(2, (3, 2, 32)), managed(NO_LUN, (3, 2, 32)), good(2, (4, 2, 33)))], drive=[WRITE], tape=b"abcd"),
        Scene("TARGET WARM RESET", [
            *begins(),
            sends(write(2, 1), manage(WARM_RESET, 2), data_out(2, b"abcd")),
            gets(wanted(2, (3, 2, 32)), managed(COMPLETE, (3, 2, 33)))], drive=[RESET], changer=[RESET], tape=b""),
        Scene("TARGET COLD RESET", [
            *begins(),
            sends(write(2, 1), manage(COLD_RESET, 2), data_out(2, b"abcd")),
            gets(wanted(2, (3, 2, 32)), managed(UNSUPPORTED, (3, 2, 32)), good(2, (4, 2, 33)))], drive=[WRITE], tape=b"abcd"),
        Scene("TASK REASSIGN", [
            *begins(),
            sends(write(2, 1), manage(REASSIGN, 2, of=2), data_out(2, b"abcd")),
            gets(wanted(2, (3, 2, 32)), managed(REASSIGNMENT, (3, 2, 32)), good(2, (4, 2, 33)))], drive=[WRITE], tape=b"abcd"),
        Scene("function 0", [
            *begins(),
            sends(write(2, 1), manage(0, 2), data_out(2, b"abcd")),
            gets(wanted(2, (3, 2, 32)), managed(UNSUPPORTED, (3, 2, 32)), good(2, (4, 2, 33)))], drive=[WRITE], tape=b"abcd"),
        Scene("function 9", [
            *begins(),
            sends(write(2, 1), manage(9, 2), data_out(2, b"abcd")),
            gets(wanted(2, (3, 2, 32)), managed(UNSUPPORTED, (3, 2, 32)), good(2, (4, 2, 33)))], drive=[WRITE], tape=b"abcd"),
        Scene("function 14", [
            *begins(),
            sends(write(2, 1), manage(14, 2), data_out(2, b"abcd")),
            gets(wanted(2, (3, 2, 32)), managed(UNSUPPORTED, (3, 2, 32)), good(2, (4, 2, 33)))], drive=[WRITE], tape=b"abcd"),
        Scene("function 127", [
            *begins(),
            sends(write(2, 1), manage(127, 2), data_out(2, b"abcd")),
            gets(wanted(2, (3, 2, 32)), managed(UNSUPPORTED, (3, 2, 32)), good(2, (4, 2, 33)))], drive=[WRITE], tape=b"abcd")),
    *under(
        "functions have their turn",
        Scene("a function that isn't immediate takes up a number", [
            *begins(),
            sends(write(2, 1), manage(ABORT_TASK, 2, of=2, now=False)),
            gets(wanted(2, (3, 2, 32)), managed(COMPLETE, (3, 3, 34)))], tape=b""),
        Scene("a function out of turn is passed over", [
            *begins(),
            sends(write(2, 1), manage(ABORT_TASK, 3, of=2, now=False)),
            gets(wanted(2, (3, 2, 32)))], tape=b"")),
]

TABLES = [Table("task management", SCENES)]
