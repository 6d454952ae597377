"""Writes by immediate, unsolicited and solicited data, and what is wrong with data."""
from pdus import (
    GROUP, INVALID_FIELD, MORE, NAMES, NEITHER, NONE, NOWHERE, NO_SUCH_UNIT, PROTOCOL_ERROR, UNEXPECTED, WRONG_AMOUNT, WRONG_PLACE, checked,
    data_out, good, rejected, text_of, wanted, write)
from scenes import WRITE, Scene, Table, begins, gets, sends, under
from stage import Step


def agreeing(*keys: bytes) -> list[Step]:
    """A session with these keys, each of which is answered as it is offered."""
    return begins(NAMES + text_of(*keys), GROUP + text_of(*keys))


# Unsolicited Data-Out are agreed too, and bursts of 512 bytes.
BURSTS = agreeing(b"InitialR2T=No", b"MaxBurstLength=512", b"FirstBurstLength=512")
# A first burst as long as the target lets it be.
LONG_FIRST_BURST = agreeing(b"InitialR2T=No", b"FirstBurstLength=262144")
# No immediate data, but unsolicited Data-Out; neither; and both.
NO_IMMEDIATE = agreeing(b"InitialR2T=No", b"ImmediateData=No")
SOLICITED_ALONE = agreeing(b"InitialR2T=Yes", b"ImmediateData=No")
UNSOLICITED = agreeing(b"InitialR2T=No")

MIXTURES = [
    *under(
        "data come in every mixture",
        Scene("no data at all", [
            *BURSTS,
            sends(write(2, 1, 0)),
            gets(good(2, (3, 2, 33)))], drive=[WRITE], tape=b""),
        Scene("immediate data", [
            *BURSTS,
            sends(write(2, 1, data=b"abcd")),
            gets(good(2, (3, 2, 33)))], drive=[WRITE], tape=b"abcd"),
        Scene("unsolicited data", [
            *BURSTS,
            sends(write(2, 1, end=MORE), data_out(2, b"abcd", transfer=NONE)),
            gets(good(2, (3, 2, 33)))], drive=[WRITE], tape=b"abcd"),
        Scene("unsolicited data in several Data-Out, of which some have none", [
            *BURSTS,
            sends(
                write(2, 1, end=MORE), data_out(2, b"ab", transfer=NONE, end=MORE),
                data_out(2, b"", transfer=NONE, count=1, offset=2, end=MORE),
                data_out(2, b"cd", transfer=NONE, count=2, offset=2, end=MORE), data_out(2, b"", transfer=NONE, count=3, offset=4)),
            gets(good(2, (3, 2, 33)))], drive=[WRITE], tape=b"abcd"),
        Scene("solicited data", [
            *BURSTS,
            sends(write(2, 1), data_out(2, b"abcd")),
            gets(wanted(2, (3, 2, 32)), good(2, (3, 2, 33)))], drive=[WRITE], tape=b"abcd"),
        Scene("solicited data in several Data-Out", [
            *BURSTS,
            sends(
                write(2, 1), data_out(2, b"a", end=MORE), data_out(2, b"bc", count=1, offset=1, end=MORE),
                data_out(2, b"d", count=2, offset=3)),
            gets(wanted(2, (3, 2, 32)), good(2, (3, 2, 33)))], drive=[WRITE], tape=b"abcd"),
        Scene("immediate and unsolicited data", [
            *BURSTS,
            sends(write(2, 1, data=b"a", end=MORE), data_out(2, b"bcd", transfer=NONE, offset=1)),
            gets(good(2, (3, 2, 33)))], drive=[WRITE], tape=b"abcd"),
        Scene("immediate and solicited data", [
            *BURSTS,
            sends(write(2, 1, data=b"a"), data_out(2, b"bcd", offset=1)),
            gets(wanted(2, (3, 2, 32), 3, offset=1), good(2, (3, 2, 33)))], drive=[WRITE], tape=b"abcd"),
        Scene("a first burst of immediate data, and solicited data", [
            *BURSTS,
            sends(write(2, 1, 514, data=b"i" * 512), data_out(2, b"ss", offset=512)),
            gets(wanted(2, (3, 2, 32), 2, offset=512), good(2, (3, 2, 33)))], drive=[WRITE], tape=b"i" * 512 + b"ss"),
        Scene("unsolicited and solicited data", [
            *BURSTS,
            sends(write(2, 1, 514, end=MORE), data_out(2, b"u" * 512, transfer=NONE), data_out(2, b"ss", offset=512)),
            gets(wanted(2, (3, 2, 32), 2, offset=512), good(2, (3, 2, 33)))], drive=[WRITE], tape=b"u" * 512 + b"ss"),
        Scene("immediate, unsolicited and solicited data, these in two bursts", [
            *BURSTS,
            sends(
                write(2, 1, 1028, data=b"i" * 500, end=MORE), data_out(2, b"u" * 12, transfer=NONE, offset=500),
                data_out(2, b"s" * 512, offset=512), data_out(2, b"tttt", transfer=1, offset=1024)),
            gets(wanted(2, (3, 2, 32), 512, offset=512), wanted(2, (3, 2, 32), offset=1024, transfer=1, count=1), good(2, (3, 2, 33)))],
            drive=[WRITE], tape=b"i" * 500 + b"u" * 12 + b"s" * 512 + b"tttt")),
    *under(
        "data come as they were agreed",
        Scene("immediate and solicited data where nothing is said", [
            *begins(),
            sends(write(2, 1, data=b"abc"), data_out(2, b"d", offset=3)),
            gets(wanted(2, (3, 2, 32), 1, offset=3), good(2, (3, 2, 33)))], drive=[WRITE], tape=b"abcd"),
        Scene("a first burst of the default", [
            *begins(),
            sends(write(2, 1, 65536, data=b"i" * 65536)),
            gets(good(2, (3, 2, 33)))], drive=[WRITE], tape=b"i" * 65536),
        Scene("unsolicited data where none are immediate", [
            *NO_IMMEDIATE,
            sends(write(2, 1, end=MORE), data_out(2, b"abcd", transfer=NONE)),
            gets(good(2, (3, 2, 33)))], drive=[WRITE], tape=b"abcd"),
        Scene("solicited data where none are immediate", [
            *NO_IMMEDIATE,
            sends(write(2, 1), data_out(2, b"abcd")),
            gets(wanted(2, (3, 2, 32)), good(2, (3, 2, 33)))], drive=[WRITE], tape=b"abcd"),
        Scene("solicited data where no other are agreed", [
            *SOLICITED_ALONE,
            sends(write(2, 1), data_out(2, b"abcd")),
            gets(wanted(2, (3, 2, 32)), good(2, (3, 2, 33)))], drive=[WRITE], tape=b"abcd"),
        Scene("what is beyond the most that a unit takes isn't asked for", [
            *begins(),
            sends(write(2, 1, 131060, lun=NOWHERE), data_out(2, b"s" * 131053)),
            gets(wanted(2, (3, 2, 32), 131053, lun=NOWHERE), checked(2, (3, 2, 33), NO_SUCH_UNIT, missing=7))]),
        Scene("immediate data beyond that aren't handed over", [
            *LONG_FIRST_BURST,
            sends(write(2, 1, 131060, data=b"i" * 131060, lun=NOWHERE)),
            gets(checked(2, (3, 2, 33), NO_SUCH_UNIT, missing=7))]),
        Scene("nor are unsolicited data", [
            *LONG_FIRST_BURST,
            sends(write(2, 1, 131060, lun=NOWHERE, end=MORE), data_out(2, b"u" * 131060, transfer=NONE)),
            gets(checked(2, (3, 2, 33), NO_SUCH_UNIT, missing=7))])),
]

FAULTS = [
    *under(
        "a write with too much or too little is not executed",
        Scene("more immediate data than is to be written", [
            *BURSTS,
            sends(write(2, 1, data=b"abcde")),
            gets(checked(2, (3, 2, 33), WRONG_AMOUNT, missing=4))], tape=b""),
        Scene("more immediate data than a first burst", [
            *BURSTS,
            sends(write(2, 1, 1024, data=b"i" * 513)),
            gets(checked(2, (3, 2, 33), WRONG_AMOUNT, missing=1024))], tape=b""),
        Scene("more immediate data than a first burst of the default", [
            *begins(),
            sends(write(2, 1, 65538, data=b"i" * 65537)),
            gets(checked(2, (3, 2, 33), WRONG_AMOUNT, missing=65538))], tape=b""),
        Scene("more unsolicited data than is to be written", [
            *BURSTS,
            sends(write(2, 1, data=b"a", end=MORE), data_out(2, b"bcde", transfer=NONE, offset=1)),
            gets(
                rejected(PROTOCOL_ERROR, (3, 2, 32), data_out(2, b"bcde", transfer=NONE, offset=1)),
                checked(2, (4, 2, 33), WRONG_AMOUNT, missing=4))], tape=b""),
        Scene("more unsolicited data than a first burst", [
            *BURSTS,
            sends(write(2, 1, 1024, data=b"i" * 500, end=MORE), data_out(2, b"u" * 13, transfer=NONE, offset=500)),
            gets(
                rejected(PROTOCOL_ERROR, (3, 2, 32), data_out(2, b"u" * 13, transfer=NONE, offset=500)),
                checked(2, (4, 2, 33), WRONG_AMOUNT, missing=1024))], tape=b""),
        Scene("less unsolicited data than a first burst", [
            *BURSTS,
            sends(write(2, 1, 1024, data=b"i" * 500, end=MORE), data_out(2, b"u" * 11, transfer=NONE, offset=500)),
            gets(
                rejected(PROTOCOL_ERROR, (3, 2, 32), data_out(2, b"u" * 11, transfer=NONE, offset=500)),
                checked(2, (4, 2, 33), WRONG_AMOUNT, missing=1024))], tape=b""),
        Scene("more than is asked for", [
            *BURSTS,
            sends(write(2, 1, 1024), data_out(2, b"s" * 513)),
            gets(
                wanted(2, (3, 2, 32), 512), rejected(PROTOCOL_ERROR, (3, 2, 32), data_out(2, b"s" * 513)),
                checked(2, (4, 2, 33), WRONG_AMOUNT, missing=1024))], tape=b""),
        Scene("less than is asked for", [
            *BURSTS,
            sends(write(2, 1, 1024), data_out(2, b"s" * 511)),
            gets(
                wanted(2, (3, 2, 32), 512), rejected(PROTOCOL_ERROR, (3, 2, 32), data_out(2, b"s" * 511)),
                checked(2, (4, 2, 33), WRONG_AMOUNT, missing=1024))], tape=b"")),
    *under(
        "a write whose data are wrong is not executed",
        Scene("data at another offset", [
            *BURSTS,
            sends(write(2, 1, data=b"a"), data_out(2, b"abc")),
            gets(
                wanted(2, (3, 2, 32), 3, offset=1), rejected(PROTOCOL_ERROR, (3, 2, 32), data_out(2, b"abc")),
                checked(2, (4, 2, 33), WRONG_PLACE, missing=4))], tape=b""),
        Scene("data with another number", [
            *BURSTS,
            sends(write(2, 1, data=b"a"), data_out(2, b"bcd", count=1, offset=1)),
            gets(
                wanted(2, (3, 2, 32), 3, offset=1), rejected(PROTOCOL_ERROR, (3, 2, 32), data_out(2, b"bcd", count=1, offset=1)),
                checked(2, (4, 2, 33), WRONG_PLACE, missing=4))], tape=b""),
        Scene("data by another tag", [
            *BURSTS,
            sends(write(2, 1), data_out(2, b"abcd", transfer=1)),
            gets(
                wanted(2, (3, 2, 32)), rejected(PROTOCOL_ERROR, (3, 2, 32), data_out(2, b"abcd", transfer=1)),
                checked(2, (4, 2, 33), UNEXPECTED, missing=4))], tape=b""),
        Scene("the same data twice, behind which the end is awaited", [
            *BURSTS,
            sends(write(2, 1), data_out(2, b"ab", end=MORE), data_out(2, b"ab", end=MORE), data_out(2, b"cd", count=1, offset=2)),
            gets(
                wanted(2, (3, 2, 32)), rejected(PROTOCOL_ERROR, (3, 2, 32), data_out(2, b"ab", end=MORE)),
                checked(2, (4, 2, 33), WRONG_PLACE, missing=4))], tape=b"")),
    *under(
        "a write whose data are not agreed is not executed",
        Scene("unsolicited data where they aren't agreed", [
            *begins(),
            sends(
                write(2, 1, end=MORE), data_out(2, b"ab", transfer=NONE, end=MORE), data_out(2, b"cd", transfer=NONE, count=1, offset=2)),
            gets(checked(2, (3, 2, 33), UNEXPECTED, missing=4))], tape=b""),
        Scene("immediate data where they aren't agreed", [
            *NO_IMMEDIATE,
            sends(write(2, 1, data=b"abcd")),
            gets(checked(2, (3, 2, 33), UNEXPECTED, missing=4))], tape=b""),
        Scene("immediate and unsolicited data where only these are agreed", [
            *NO_IMMEDIATE,
            sends(write(2, 1, data=b"a", end=MORE), data_out(2, b"bcd", transfer=NONE, offset=1)),
            gets(checked(2, (3, 2, 33), UNEXPECTED, missing=4))], tape=b"")),
    *under(
        "data find their own task",
        Scene("data before the turn of their write, which fails in its turn", [
            *begins(),
            sends(write(2, 1), write(3, 2), data_out(3, b"abcd"), data_out(2, b"abcd")),
            gets(
                wanted(2, (3, 2, 32)), rejected(PROTOCOL_ERROR, (3, 3, 32), data_out(3, b"abcd")), good(2, (4, 3, 33)),
                checked(3, (5, 3, 34), UNEXPECTED, missing=4))], drive=[WRITE], tape=b"abcd"),
        Scene("data for no task end none", [
            *begins(),
            sends(write(2, 1), data_out(9, b"abcd"), data_out(2, b"abcd")),
            gets(wanted(2, (3, 2, 32)), rejected(INVALID_FIELD, (3, 2, 32), data_out(9, b"abcd")), good(2, (4, 2, 33)))],
            drive=[WRITE], tape=b"abcd"),
        Scene("data of a write that is passed over are passed over", [
            *UNSOLICITED,
            sends(write(9, 5, end=MORE), data_out(9, b"abcd", transfer=NONE))], tape=b""),
        Scene("a command without W has no data", [
            *begins(),
            sends(write(2, 1, 0, data=b"abcd", kind=NEITHER)),
            gets(good(2, (3, 2, 33)))], drive=[WRITE], tape=b"")),
]

TABLES = [Table("mixtures of data", MIXTURES), Table("wrong data", FAULTS)]
