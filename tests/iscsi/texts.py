"""Text requests in full feature, in pieces on either side. 1 is the tag of a text that goes on."""
from pdus import (
    CONTINUES, DISCOVERY, FINAL, MORE, OF_TARGET, PROTOCOL_ERROR, TARGET, TO_FULL, At, logged_out, logout, rejected, text, text_answer,
    text_of)
from scenes import OUT, Scene, Table, Turn, begins, gets, sends, turn, under
from stage import Pdu, Stage


def keys(count: int) -> bytes:
    """A text of so many keys."""
    return text_of(*(b"X-%02d=1" % number for number in range(count)))


# Its answers have 570 bytes, of which the first 512 end before the NUL of the 27th.
MANY = keys(30)
ALL_ANSWERS = text_of(*(b"X-%02d=NotUnderstood" % number for number in range(30)))
MANY_ANSWERS, OTHER_ANSWERS = ALL_ANSWERS[:512], ALL_ANSWERS[512:]
LENGTHS = text_of(b"MaxRecvDataSegmentLength=512", b"MaxRecvDataSegmentLength=1024")


def found(at: At) -> Pdu:
    """The target, by both portals: the one that listens everywhere by the address that the connection came to."""
    def made(stage: Stage) -> bytes:
        addresses = (b"TargetAddress=127.0.0.1:%d,%d" % (port, group) for group, (_, port) in enumerate(stage.portals(), 1))
        return text_answer(at, text_of(OF_TARGET, *addresses))

    return made


SCENES = [
    *under(
        "texts come and go in pieces",
        Scene("a text is cut within a key", [
            *begins(),
            sends(text(1, b"SendTar", flags=CONTINUES), text(2, b"gets=\0", transfer=1)),
            gets(text_answer((3, 2, 33), transfer=1, flags=MORE), found((4, 3, 34)))]),
        Scene("a text is cut within a value", [
            *begins(),
            sends(text(1, b"SendTargets=iq", flags=CONTINUES), text(2, TARGET[2:] + b"\0", transfer=1)),
            gets(text_answer((3, 2, 33), transfer=1, flags=MORE), found((4, 3, 34)))]),
        Scene("a text is cut before a NUL", [
            *begins(),
            sends(text(1, b"SendTargets=" + TARGET, flags=CONTINUES), text(2, b"\0", transfer=1)),
            gets(text_answer((3, 2, 33), transfer=1, flags=MORE), found((4, 3, 34)))]),
        Scene("a text in three pieces, each key of which is answered once", [
            *begins(),
            sends(
                text(1, b"X-a=1\0X-", flags=CONTINUES), text(2, b"b=2\0X-c", transfer=1, flags=CONTINUES), text(3, b"=3\0", transfer=1)),
            gets(
                text_answer((3, 2, 33), transfer=1, flags=MORE), text_answer((4, 3, 34), transfer=1, flags=MORE),
                text_answer((5, 4, 35), b"X-a=NotUnderstood\0X-b=NotUnderstood\0X-c=NotUnderstood\0"))]),
        Scene("pieces without a byte", [
            *begins(),
            sends(text(1, flags=CONTINUES), text(2, b"X-a=1\0", transfer=1, flags=CONTINUES), text(3, transfer=1)),
            gets(
                text_answer((3, 2, 33), transfer=1, flags=MORE), text_answer((4, 3, 34), transfer=1, flags=MORE),
                text_answer((5, 4, 35), b"X-a=NotUnderstood\0"))])),
    *under(
        "texts go on by their tag",
        Scene("another text begins, and what was gathered is forgotten", [
            *begins(),
            sends(text(1, b"X-a=1\0X-", flags=CONTINUES), text(2, b"b=2\0"), text(3, transfer=1)),
            gets(
                text_answer((3, 2, 33), transfer=1, flags=MORE), text_answer((4, 3, 34), b"b=NotUnderstood\0"),
                rejected(PROTOCOL_ERROR, (5, 4, 35), text(3, transfer=1)))]),
        Scene("a tag that nothing has given out changes nothing", [
            *begins(),
            sends(
                text(1, b"X-a=1\0", transfer=1, flags=CONTINUES), text(2, transfer=1), text(3, b"X-a", flags=CONTINUES),
                text(4, b"=1\0", transfer=2), text(5, b"=1\0", transfer=1), text(6, transfer=1)),
            gets(
                rejected(PROTOCOL_ERROR, (3, 2, 33), text(1, b"X-a=1\0", transfer=1, flags=CONTINUES)),
                rejected(PROTOCOL_ERROR, (4, 3, 34), text(2, transfer=1)), text_answer((5, 4, 35), transfer=1, flags=MORE),
                rejected(PROTOCOL_ERROR, (6, 5, 36), text(4, b"=1\0", transfer=2)), text_answer((7, 6, 37), b"X-a=NotUnderstood\0"),
                rejected(PROTOCOL_ERROR, (8, 7, 38), text(6, transfer=1)))]),
        Scene("F and C exclude each other", [
            *begins(),
            sends(
                text(1, b"X-a=1\0", flags=CONTINUES | FINAL), text(2, b"X-a", flags=CONTINUES),
                text(3, b"=1\0", transfer=1, flags=CONTINUES | FINAL), text(4, b"=1\0", transfer=1)),
            gets(
                rejected(PROTOCOL_ERROR, (3, 2, 33), text(1, b"X-a=1\0", flags=CONTINUES | FINAL)),
                text_answer((4, 3, 34), transfer=1, flags=MORE),
                rejected(PROTOCOL_ERROR, (5, 4, 35), text(3, b"=1\0", transfer=1, flags=CONTINUES | FINAL)),
                rejected(PROTOCOL_ERROR, (6, 5, 36), text(4, b"=1\0", transfer=1)))]),
        Scene("a request without F has more keys behind it", [
            *begins(),
            sends(text(1, b"X-a=1\0", flags=MORE), text(2, b"X-b=1\0", transfer=1, flags=MORE), text(3, b"X-c=1\0", transfer=1)),
            gets(
                text_answer((3, 2, 33), b"X-a=NotUnderstood\0", transfer=1, flags=MORE),
                text_answer((4, 3, 34), b"X-b=NotUnderstood\0", transfer=1, flags=MORE), text_answer((5, 4, 35), b"X-c=NotUnderstood\0"))]),
        Scene("and such keys come in pieces", [
            *begins(),
            sends(text(1, b"X-a=1\0", flags=MORE), text(2, b"X-b", transfer=1, flags=CONTINUES), text(3, b"=1\0", transfer=1)),
            gets(
                text_answer((3, 2, 33), b"X-a=NotUnderstood\0", transfer=1, flags=MORE), text_answer((4, 3, 34), transfer=1, flags=MORE),
                text_answer((5, 4, 35), b"X-b=NotUnderstood\0"))])),
    *under(
        "answers go out in pieces",
        Scene("an answer in pieces", [
            *begins(),
            sends(text(1, b"MaxRecvDataSegmentLength=512\0"), text(2, MANY), text(3, transfer=1)),
            gets(
                text_answer((3, 2, 33)), text_answer((4, 3, 34), MANY_ANSWERS, transfer=1, flags=CONTINUES),
                text_answer((5, 4, 35), OTHER_ANSWERS))]),
        Scene("a text before the rest of the answer to another", [
            *begins(),
            sends(text(1, b"MaxRecvDataSegmentLength=512\0"), text(2, MANY), text(3, b"X-z=1\0", transfer=1), text(4, transfer=1)),
            gets(
                text_answer((3, 2, 33)), text_answer((4, 3, 34), MANY_ANSWERS, transfer=1, flags=CONTINUES),
                rejected(PROTOCOL_ERROR, (5, 4, 35), text(3, b"X-z=1\0", transfer=1)),
                rejected(PROTOCOL_ERROR, (6, 5, 36), text(4, transfer=1)))]),
        Scene("a text with C before the rest of the answer to another", [
            *begins(),
            sends(
                text(1, b"MaxRecvDataSegmentLength=512\0"), text(2, MANY), text(3, transfer=1, flags=CONTINUES),
                text(4, b"X-z", flags=CONTINUES), text(5, b"=1\0", transfer=1)),
            gets(
                text_answer((3, 2, 33)), text_answer((4, 3, 34), MANY_ANSWERS, transfer=1, flags=CONTINUES),
                rejected(PROTOCOL_ERROR, (5, 4, 35), text(3, transfer=1, flags=CONTINUES)),
                text_answer((6, 5, 36), transfer=1, flags=MORE), text_answer((7, 6, 37), b"X-z=NotUnderstood\0"))]),
        Scene("a length that is declared in pieces counts from the next answer on", [
            *begins(),
            sends(
                text(1, b"MaxRecvDataSegme", flags=CONTINUES), text(2, b"ntLength=5", transfer=1, flags=CONTINUES),
                text(3, b"12\0", transfer=1), text(4, MANY)),
            gets(
                text_answer((3, 2, 33), transfer=1, flags=MORE), text_answer((4, 3, 34), transfer=1, flags=MORE), text_answer((5, 4, 35)),
                text_answer((6, 5, 36), MANY_ANSWERS, transfer=1, flags=CONTINUES))])),
    *under(
        "a text has a key once",
        Scene("a key twice", [
            *begins(),
            sends(text(1, b"X-a=1\0X-b=1\0X-a=1\0"), text(2, b"X-a=1\0")),
            gets(
                rejected(PROTOCOL_ERROR, (3, 2, 33), text(1, b"X-a=1\0X-b=1\0X-a=1\0")),
                text_answer((4, 3, 34), b"X-a=NotUnderstood\0"))]),
        Scene("a key that is known twice, and nothing of it counts", [
            *begins(),
            sends(text(1, LENGTHS), text(2, MANY)),
            gets(rejected(PROTOCOL_ERROR, (3, 2, 33), text(1, LENGTHS)), text_answer((4, 3, 34), ALL_ANSWERS))]),
        Scene("a key twice in pieces, and the text is forgotten", [
            *begins(),
            sends(text(1, b"X-a=1\0X-", flags=CONTINUES), text(2, b"a=2\0", transfer=1), text(3, transfer=1)),
            gets(
                text_answer((3, 2, 33), transfer=1, flags=MORE), rejected(PROTOCOL_ERROR, (4, 3, 34), text(2, b"a=2\0", transfer=1)),
                rejected(PROTOCOL_ERROR, (5, 4, 35), text(3, transfer=1)))]),
        Scene("a key in letters of the other case is another", [
            *begins(),
            sends(text(1, b"X-a=1\0X-A=1\0")), gets(text_answer((3, 2, 33), b"X-a=NotUnderstood\0X-A=NotUnderstood\0"))]),
        Scene("64 keys, and 65", [
            *begins(),
            sends(text(1, keys(64)), text(2, keys(65))),
            gets(
                text_answer((3, 2, 33), text_of(*(b"X-%02d=NotUnderstood" % number for number in range(64)))),
                rejected(PROTOCOL_ERROR, (4, 3, 34), text(2, keys(65))))])),
    *under(
        "a text has an end",
        Scene("a text of 65,537 bytes", [
            *begins(),
            sends(
                text(1, b"X" * 65536, flags=CONTINUES), text(2, transfer=1, flags=CONTINUES), text(3, b"X", transfer=1),
                text(4, transfer=1), text(5, b"X-a=1\0")),
            gets(
                text_answer((3, 2, 33), transfer=1, flags=MORE), text_answer((4, 3, 34), transfer=1, flags=MORE),
                rejected(PROTOCOL_ERROR, (5, 4, 35), text(3, b"X", transfer=1)),
                rejected(PROTOCOL_ERROR, (6, 5, 36), text(4, transfer=1)), text_answer((7, 6, 37), b"X-a=NotUnderstood\0"))])),
]

OF_DISCOVERY = Scene("a discovery session finds the target", [
    *turn(0, Turn(TO_FULL, DISCOVERY)), sends(text(1, text_of(b"SendTargets=All")), logout(5, 2, now=True)),
    gets(found((1, 2, 33)), logged_out(5, (2, 2, 33)))], ended=OUT, drive=None)

TABLES = [Table("text requests", [*SCENES, OF_DISCOVERY], ["0.0.0.0:0", "127.0.0.1:0"], ["--no-authentication"])]
