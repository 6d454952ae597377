"""Logins: who is let in, and how others are refused."""
from pdus import (
    AUTHENTICATION_FAILURE, AUTHORIZATION_FAILURE, CONTINUES, DISCOVERY, FULL_FEATURE, GROUP, INITIATOR, INITIATOR_ERROR,
    INVALID_DURING_LOGIN, MISSING_PARAMETER, NAMES, NEXT_FULL, NEXT_NONE, NEXT_OPERATIONAL, NORMAL, NOT_FOUND, NO_SUCH_SESSION, OF_TARGET,
    ON, OPERATIONAL, SECURITY, SKIPS, TO_FULL, TRANSIT, TYPE_NOT_SUPPORTED, UNSUPPORTED_VERSION, nop_out, refused, text_of)
from scenes import REFUSALS, Scene, Table, Turn, gets, login_scene, sends, turn, under

# The first text of open-iscsi, which leads to operational negotiation, and its second.
FIRST = text_of(INITIATOR, b"InitiatorAlias=host", OF_TARGET, NORMAL, b"AuthMethod=None")
FIRST_ANSWER = GROUP + text_of(b"AuthMethod=None")
OF_OPEN_ISCSI = (
    b"HeaderDigest=None", b"DataDigest=None", b"DefaultTime2Wait=2", b"DefaultTime2Retain=0", b"IFMarker=No", b"OFMarker=No",
    b"ErrorRecoveryLevel=0", b"InitialR2T=No", b"ImmediateData=Yes", b"MaxBurstLength=16776192", b"FirstBurstLength=262144",
    b"MaxOutstandingR2T=1", b"MaxConnections=1", b"DataPDUInOrder=Yes", b"DataSequenceInOrder=Yes", b"MaxRecvDataSegmentLength=262144")
OFFERS = text_of(*OF_OPEN_ISCSI)
ANSWERS = text_of(*(b"MaxBurstLength=1048576" if key.startswith(b"MaxBurst") else key for key in OF_OPEN_ISCSI))
OPENED = Turn(ON, FIRST, FIRST_ANSWER)
# One whose name isn't let in, and keys that aren't.
STRANGER = INITIATOR + b"d"
NO_DIGEST, NO_METHOD, NO_TYPE = b"HeaderDigest=CRC32C", b"AuthMethod=CHAP", b"SessionType=Boot"

# From security negotiation on.
FIRST_REQUESTS = under(
    "a first request is refused by its status",
    login_scene("no initiator", Turn(ON, text_of(OF_TARGET), back=SECURITY, status=MISSING_PARAMETER)),
    login_scene("an initiator that isn't let in", Turn(ON, text_of(STRANGER, OF_TARGET), back=SECURITY, status=AUTHORIZATION_FAILURE)),
    login_scene("no target", Turn(ON, text_of(INITIATOR), back=SECURITY, status=MISSING_PARAMETER)),
    login_scene("another target", Turn(ON, text_of(INITIATOR, OF_TARGET + b":disk"), back=SECURITY, status=NOT_FOUND)),
    login_scene("another type of session", Turn(ON, text_of(INITIATOR, NO_TYPE), back=SECURITY, status=TYPE_NOT_SUPPORTED)),
    login_scene("another method", Turn(ON, text_of(INITIATOR, OF_TARGET, NO_METHOD), back=SECURITY, status=AUTHENTICATION_FAILURE)),
    login_scene("another digest", Turn(ON, text_of(INITIATOR, OF_TARGET, NO_DIGEST), back=SECURITY, status=INITIATOR_ERROR)),
    login_scene("no NUL", Turn(ON, text_of(INITIATOR, OF_TARGET) + b"AuthMethod=None", back=SECURITY, status=INITIATOR_ERROR)),
    login_scene("a later version", Turn(ON, FIRST, back=SECURITY, status=UNSUPPORTED_VERSION, least=1)),
    login_scene("T with C", Turn(ON | CONTINUES, FIRST, back=SECURITY, status=INITIATOR_ERROR)),
    login_scene("back", Turn(TRANSIT | OPERATIONAL, FIRST, back=OPERATIONAL, status=INITIATOR_ERROR)),
    login_scene("no stage", Turn(TRANSIT | NEXT_NONE, FIRST, back=SECURITY, status=INITIATOR_ERROR)),
    login_scene("no login", Turn(FULL_FEATURE | NEXT_FULL, FIRST, back=FULL_FEATURE, status=INITIATOR_ERROR)))

# From operational negotiation on.
REFUSED = under(
    "a refusal tells its status",
    login_scene("a stage that leads back", Turn(TRANSIT | OPERATIONAL, NAMES, back=OPERATIONAL, status=INITIATOR_ERROR)),
    login_scene("a text without its last NUL", Turn(TO_FULL, NAMES.removesuffix(b"\0"), back=OPERATIONAL, status=INITIATOR_ERROR)),
    login_scene(
        "a method that isn't asked for",
        Turn(TO_FULL, text_of(INITIATOR, OF_TARGET, NO_METHOD), back=OPERATIONAL, status=AUTHENTICATION_FAILURE)),
    login_scene(
        "an initiator that isn't let in",
        Turn(TO_FULL, text_of(STRANGER, OF_TARGET), back=OPERATIONAL, status=AUTHORIZATION_FAILURE)),
    login_scene("another name", Turn(TO_FULL, text_of(STRANGER, OF_TARGET, NORMAL), back=OPERATIONAL, status=AUTHORIZATION_FAILURE)),
    login_scene("another target", Turn(TO_FULL, text_of(INITIATOR, b"TargetName=iqn.u"), back=OPERATIONAL, status=NOT_FOUND)),
    login_scene("a later version alone", Turn(TO_FULL, NAMES, back=OPERATIONAL, status=UNSUPPORTED_VERSION, least=1)),
    login_scene("no initiator", Turn(TO_FULL, text_of(OF_TARGET), back=OPERATIONAL, status=MISSING_PARAMETER)),
    login_scene("no target", Turn(TO_FULL, text_of(INITIATOR), back=OPERATIONAL, status=MISSING_PARAMETER)),
    login_scene("another type of session", Turn(TO_FULL, text_of(INITIATOR, NO_TYPE), back=OPERATIONAL, status=TYPE_NOT_SUPPORTED)),
    login_scene("a session that doesn't live", Turn(TO_FULL, NAMES, back=OPERATIONAL, status=NO_SUCH_SESSION, tsih=7)),
    login_scene("a discovery session that doesn't live", Turn(TO_FULL, DISCOVERY, back=OPERATIONAL, status=NO_SUCH_SESSION, tsih=7)))

ANOTHER_CAME = f"login refused: {REFUSALS[INVALID_DURING_LOGIN]}"

LOGINS = [
    login_scene(
        "a discovery session needs no target: a key of data in a discovery session",
        Turn(TO_FULL, DISCOVERY + text_of(b"MaxBurstLength=8192"), text_of(b"MaxBurstLength=Irrelevant"))),
    login_scene("a stage that was left does not come again", OPENED, Turn(SKIPS, OFFERS, back=SECURITY, status=INITIATOR_ERROR)),
    login_scene(
        "a request of another login is refused: another CmdSN", OPENED,
        Turn(TO_FULL, OFFERS, back=OPERATIONAL, status=INITIATOR_ERROR, number=2)),
    login_scene(
        "names are said again as they were: the same names, and another type of session", OPENED,
        Turn(OPERATIONAL | NEXT_OPERATIONAL, NAMES + text_of(b"MaxConnections=1"), text_of(b"MaxConnections=1"), back=OPERATIONAL),
        Turn(TO_FULL, text_of(b"SessionType=Discovery"), back=OPERATIONAL, status=INITIATOR_ERROR)),
    login_scene(
        "a text in pieces is answered once it is whole: a piece, and all pieces", Turn(CONTINUES, b"InitiatorN", back=SECURITY),
        Turn(ON, FIRST.removeprefix(b"InitiatorN"), FIRST_ANSWER)),
    Scene("another pdu ends a login: a NOP-Out behind a request", [
        *turn(0, Turn(OPERATIONAL, NAMES, GROUP)), sends(nop_out(2, 1, now=True)),
        gets(refused(OPERATIONAL, INVALID_DURING_LOGIN, (1, 1, 32)))],
        ended=ANOTHER_CAME, drive=None),
    Scene("another pdu before a login is not answered: a NOP-Out before any request", [sends(nop_out(2, 1, now=True))],
          ended=ANOTHER_CAME, drive=None),
    login_scene("an empty item at the end is none", Turn(TO_FULL, NAMES + b"\0", GROUP)),
    login_scene(
        "names are the same in capital letters",
        Turn(TO_FULL, NAMES.replace(b"example", b"EXAMPLE").replace(b"localhost", b"LocalHost"), GROUP)),
    # By the second portal.
    login_scene(
        "a login through both stages reaches full feature", Turn(ON, FIRST, text_of(b"TargetPortalGroupTag=2", b"AuthMethod=None")),
        Turn(TO_FULL, OFFERS, ANSWERS))._replace(portal=1),
]


def as_any_host(shows: str, name: bytes, address: str) -> Scene:
    """A host that isn't named, as the SAS address that is made of the SHA-256 of its name."""
    text = text_of(b"InitiatorName=" + name, OF_TARGET, NORMAL, b"X-own=1")
    scene = login_scene(shows, Turn(TO_FULL, text, GROUP + text_of(b"X-own=NotUnderstood")))
    return scene._replace(reported=f"of {address}.1: {name.decode()} logged in\n")


ANY_HOST = [
    as_any_host(
        "a login may begin with operational keys: operational keys first, a key of its own, and any other host",
        b"iqn.2007-10.com.github:sahlberg:libiscsi:a", "533fc58f33edc169"),
    as_any_host("any other host", b"iqn.2026-11.localhost:b", "5681b2431e96440a"),
    as_any_host("the same in capital letters", b"IQN.2026-11.LocalHost:B", "5681b2431e96440a"),
    login_scene(
        "no name is none",
        Turn(TO_FULL, text_of(b"InitiatorName=", OF_TARGET, NORMAL), back=OPERATIONAL, status=AUTHORIZATION_FAILURE)),
]

TABLES = [
    Table("logins", [*FIRST_REQUESTS, *REFUSED, *LOGINS], ["127.0.0.1:0", "127.0.0.1:0"]),
    Table("logins of any host", ANY_HOST, words=["--any-host"])]
