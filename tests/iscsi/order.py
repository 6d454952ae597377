"""The order of commands by CmdSN, and its circle. The number that is expected first is 1 where nothing else is said."""
from pdus import CHANGER, NONE, data_out, good, nop_in, nop_out, ready, rejected, wanted, write
from scenes import TEST, WRITE, Scene, Table, begins, gets, sends, under

SCENES = [
    *under(
        "commands are executed in the order of their numbers",
        Scene("one after the other", [
            *begins(),
            sends(ready(2, 1), ready(3, 2)),
            gets(good(2, (3, 2, 33)), good(3, (4, 3, 34)))], drive=[TEST, TEST]),
        Scene("above, below, and half the circle away", [
            *begins(),
            sends(ready(2, 2), ready(3, 0), ready(4, 33), ready(5, 0x80000001), ready(6, NONE), ready(7, 1)),
            gets(good(7, (3, 2, 33)))], drive=[TEST]),
        Scene("the same twice", [
            *begins(),
            sends(ready(2, 1), ready(2, 1)),
            gets(good(2, (3, 2, 33)))], drive=[TEST]),
        Scene("an immediate command takes up no number", [
            *begins(),
            sends(ready(2, 1, now=True), ready(3, 1)),
            gets(good(2, (3, 1, 32)), good(3, (4, 2, 33)))], drive=[TEST, TEST]),
        Scene("commands wait behind a write whose data are awaited, an immediate one at the place where it came", [
            *begins(),
            sends(write(2, 1), ready(3, 2, now=True), ready(4, 2, lun=CHANGER), data_out(2, b"abcd")),
            gets(wanted(2, (3, 2, 32)), good(2, (3, 3, 33)), good(3, (4, 3, 33)), good(4, (5, 3, 34)))],
            drive=[WRITE, TEST], changer=[TEST], tape=b"abcd"),
        Scene("a NOP-Out out of turn is passed over too", [
            *begins(),
            sends(nop_out(2, 2), nop_out(3, 1, b"ping")),
            gets(nop_in(3, (3, 2, 33), b"ping"))])),
    *under(
        "command numbers go round the circle",
        Scene("round the circle", [
            *begins(number=0xFFFFFFFE),
            sends(ready(2, 0), ready(3, 0xFFFFFFFE), ready(4, NONE), ready(5, 0), ready(6, 1)),
            gets(good(3, (3, NONE, 30)), good(4, (4, 0, 31)), good(5, (5, 1, 32)), good(6, (6, 2, 33)))], drive=[TEST, TEST, TEST, TEST]),
        Scene("a write waits round the circle", [
            *begins(number=NONE),
            sends(write(2, NONE), ready(3, 0), data_out(2, b"abcd")),
            gets(wanted(2, (3, 0, 30)), good(2, (3, 1, 31)), good(3, (4, 1, 32)))], drive=[WRITE, TEST], tape=b"abcd")),
    *under(
        "as many as 32 commands wait in their order",
        Scene("32 commands wait", [
            *begins(),
            sends(write(1, 1), *(ready(number, number) for number in range(2, 33)), data_out(1, b"abcd")),
            gets(
                wanted(1, (3, 2, 32)), good(1, (3, 33, 33)), *(good(number, (number + 2, 33, number + 32)) for number in range(2, 33)))],
            drive=[WRITE, *[TEST] * 31], tape=b"abcd")),
    *under(
        "a command that comes while the window is closed is passed over, and its number is still expected",
        Scene("33 commands", [
            *begins(),
            sends(write(1, 1), *(ready(number, number) for number in range(2, 34)), data_out(1, b"abcd")),
            gets(
                wanted(1, (3, 2, 32)), good(1, (3, 33, 33)), *(good(number, (number + 2, 33, number + 32)) for number in range(2, 33))),
            sends(ready(33, 33)),
            gets(good(33, (35, 34, 65)))],
            drive=[WRITE, *[TEST] * 32], tape=b"abcd")),
    *under(
        "so many commands for immediate delivery wait, and one more is rejected",
        Scene("33 immediate commands", [
            *begins(),
            sends(write(1, 1), *(ready(number, 2, now=True) for number in range(2, 35)), data_out(1, b"abcd")),
            gets(
                wanted(1, (3, 2, 32)), rejected(6, (3, 2, 32), ready(34, 2, now=True)), good(1, (4, 2, 33)),
                *(good(number, (number + 3, 2, 33)) for number in range(2, 34)))],
            drive=[WRITE, *[TEST] * 32], tape=b"abcd")),
]

TABLES = [Table("the order of commands", SCENES)]
