"""Each key of a login: offered in its range, at its ends, out of it and malformed."""
from pdus import AUTHENTICATION_FAILURE, DISCOVERY, GROUP, INITIATOR_ERROR, NAMES, OPERATIONAL, text_of
from scenes import Scene, Table, Turn, login_scene, under

# The status where the value of a key is out of its range that the session can't do without, and where there is no method.
NEEDED, NO_METHOD = INITIATOR_ERROR, AUTHENTICATION_FAILURE

# A key as it is offered, and how it is answered, or the status.
Offer = tuple[str, str | int]

OF_LOGINS: list[Offer] = [
    ("InitiatorAlias=host", ""), ("InitiatorAlias=", ""), ("AuthMethod=None", "AuthMethod=None"),
    ("AuthMethod=CHAP,None", "AuthMethod=None"), ("AuthMethod=CHAP", NO_METHOD), ("AuthMethod=", NO_METHOD),
    ("AuthMethod=none", NO_METHOD), ("HeaderDigest=None", "HeaderDigest=None"), ("HeaderDigest=CRC32C,None", "HeaderDigest=None"),
    ("HeaderDigest=CRC32C", NEEDED), ("HeaderDigest=CRC32C,None2", NEEDED), ("HeaderDigest=", NEEDED),
    ("DataDigest=None", "DataDigest=None"), ("DataDigest=CRC32C,None", "DataDigest=None"), ("DataDigest=CRC32C", NEEDED),
    ("DataDigest=CRC32C,None2", NEEDED), ("DataDigest=", NEEDED), ("MaxConnections=1", "MaxConnections=1"),
    ("MaxConnections=8", "MaxConnections=1"), ("MaxConnections=65535", "MaxConnections=1"), ("MaxConnections=0", "MaxConnections=Reject"),
    ("MaxConnections=65536", "MaxConnections=Reject"), ("MaxConnections=one", "MaxConnections=Reject")]

# How data go: when, and how much. A first burst is no longer than a burst that was agreed before it.
OF_DATA: list[Offer] = [
    ("InitialR2T=Yes", "InitialR2T=Yes"), ("InitialR2T=No", "InitialR2T=No"), ("InitialR2T=yes", NEEDED), ("InitialR2T=", NEEDED),
    ("ImmediateData=Yes", "ImmediateData=Yes"), ("ImmediateData=No", "ImmediateData=No"), ("ImmediateData=NO", NEEDED),
    ("ImmediateData=1", NEEDED), ("MaxRecvDataSegmentLength=512", "MaxRecvDataSegmentLength=262144"),
    ("MaxRecvDataSegmentLength=8192", "MaxRecvDataSegmentLength=262144"),
    ("MaxRecvDataSegmentLength=16777215", "MaxRecvDataSegmentLength=262144"),
    ("MaxRecvDataSegmentLength=0xFFFFFF", "MaxRecvDataSegmentLength=262144"), ("MaxRecvDataSegmentLength=511", NEEDED),
    ("MaxRecvDataSegmentLength=0", NEEDED), ("MaxRecvDataSegmentLength=16777216", NEEDED), ("MaxRecvDataSegmentLength=64K", NEEDED),
    ("MaxRecvDataSegmentLength=-1", NEEDED), ("FirstBurstLength=512", "FirstBurstLength=512"),
    ("FirstBurstLength=65536", "FirstBurstLength=65536"), ("FirstBurstLength=262144", "FirstBurstLength=262144"),
    ("FirstBurstLength=262145", "FirstBurstLength=262144"), ("FirstBurstLength=16777215", "FirstBurstLength=262144"),
    ("FirstBurstLength=511", NEEDED), ("FirstBurstLength=16777216", NEEDED), ("FirstBurstLength=0x", NEEDED),
    ("MaxBurstLength=512", "MaxBurstLength=512"), ("MaxBurstLength=0x200", "MaxBurstLength=512"),
    ("MaxBurstLength=65536", "MaxBurstLength=65536"), ("MaxBurstLength=1048576", "MaxBurstLength=1048576"),
    ("MaxBurstLength=1048577", "MaxBurstLength=1048576"), ("MaxBurstLength=16777215", "MaxBurstLength=1048576"),
    ("MaxBurstLength=511", NEEDED), ("MaxBurstLength=16777216", NEEDED), ("MaxBurstLength=64K", NEEDED)]

# Times, what is outstanding, order and recovery.
OF_RECOVERY: list[Offer] = [
    ("DefaultTime2Wait=0", "DefaultTime2Wait=0"), ("DefaultTime2Wait=2", "DefaultTime2Wait=2"),
    ("DefaultTime2Wait=3600", "DefaultTime2Wait=3600"), ("DefaultTime2Wait=3601", "DefaultTime2Wait=Reject"),
    ("DefaultTime2Wait=soon", "DefaultTime2Wait=Reject"), ("DefaultTime2Retain=0", "DefaultTime2Retain=0"),
    ("DefaultTime2Retain=20", "DefaultTime2Retain=0"), ("DefaultTime2Retain=3600", "DefaultTime2Retain=0"),
    ("DefaultTime2Retain=3601", "DefaultTime2Retain=Reject"), ("DefaultTime2Retain=", "DefaultTime2Retain=Reject"),
    ("MaxOutstandingR2T=1", "MaxOutstandingR2T=1"), ("MaxOutstandingR2T=16", "MaxOutstandingR2T=1"),
    ("MaxOutstandingR2T=65535", "MaxOutstandingR2T=1"), ("MaxOutstandingR2T=0", "MaxOutstandingR2T=Reject"),
    ("MaxOutstandingR2T=65536", "MaxOutstandingR2T=Reject"), ("MaxOutstandingR2T=1,2", "MaxOutstandingR2T=Reject"),
    ("DataPDUInOrder=Yes", "DataPDUInOrder=Yes"), ("DataPDUInOrder=No", "DataPDUInOrder=Yes"),
    ("DataPDUInOrder=Maybe", "DataPDUInOrder=Reject"), ("DataSequenceInOrder=Yes", "DataSequenceInOrder=Yes"),
    ("DataSequenceInOrder=No", "DataSequenceInOrder=Yes"), ("DataSequenceInOrder=Maybe", "DataSequenceInOrder=Reject"),
    ("ErrorRecoveryLevel=0", "ErrorRecoveryLevel=0"), ("ErrorRecoveryLevel=1", "ErrorRecoveryLevel=0"),
    ("ErrorRecoveryLevel=2", "ErrorRecoveryLevel=0"), ("ErrorRecoveryLevel=3", "ErrorRecoveryLevel=Reject"),
    ("ErrorRecoveryLevel=-1", "ErrorRecoveryLevel=Reject")]

# Of task reporting, of markers, and of nothing that is known.
OF_OTHERS: list[Offer] = [
    ("TaskReporting=RFC3720", "TaskReporting=RFC3720"), ("TaskReporting=ResponseFence,FastAbort,RFC3720", "TaskReporting=RFC3720"),
    ("TaskReporting=FastAbort", "TaskReporting=Reject"), ("IFMarker=No", "IFMarker=No"), ("IFMarker=Yes", "IFMarker=No"),
    ("IFMarker=Perhaps", "IFMarker=Reject"), ("OFMarker=No", "OFMarker=No"), ("OFMarker=Yes", "OFMarker=No"),
    ("OFMarker=Perhaps", "OFMarker=Reject"), ("IFMarkInt=2048~8192", "IFMarkInt=Reject"), ("OFMarkInt=2048~8192", "OFMarkInt=Reject"),
    ("X-com.example.key=1", "X-com.example.key=NotUnderstood"), ("maxconnections=1", "maxconnections=NotUnderstood")]

IN_DISCOVERY: list[Offer] = [
    ("MaxConnections=1", "MaxConnections=Irrelevant"), ("InitialR2T=No", "InitialR2T=Irrelevant"),
    ("ImmediateData=Yes", "ImmediateData=Irrelevant"), ("MaxBurstLength=8192", "MaxBurstLength=Irrelevant"),
    ("MaxBurstLength=0", "MaxBurstLength=Irrelevant"), ("FirstBurstLength=512", "FirstBurstLength=Irrelevant"),
    ("MaxOutstandingR2T=1", "MaxOutstandingR2T=Irrelevant"), ("DataPDUInOrder=Yes", "DataPDUInOrder=Irrelevant"),
    ("DataSequenceInOrder=No", "DataSequenceInOrder=Irrelevant"), ("TaskReporting=RFC3720", "TaskReporting=Irrelevant"),
    ("HeaderDigest=None", "HeaderDigest=None"), ("DataDigest=CRC32C", NEEDED), ("AuthMethod=None", "AuthMethod=None"),
    ("AuthMethod=CHAP", NO_METHOD), ("MaxRecvDataSegmentLength=512", "MaxRecvDataSegmentLength=262144"),
    ("MaxRecvDataSegmentLength=511", NEEDED), ("DefaultTime2Wait=0", "DefaultTime2Wait=0"),
    ("DefaultTime2Retain=20", "DefaultTime2Retain=0"), ("ErrorRecoveryLevel=2", "ErrorRecoveryLevel=0"), ("IFMarker=Yes", "IFMarker=No")]

# Offers of several keys in one text, and their answers one after another.
SEVERAL = text_of(
    b"HeaderDigest=CRC32C,None", b"InitialR2T=No", b"MaxBurstLength=16776192", b"FirstBurstLength=0x20000", b"X-own=1")
SEVERAL_ANSWERS = text_of(
    b"HeaderDigest=None", b"InitialR2T=No", b"MaxBurstLength=1048576", b"FirstBurstLength=131072", b"X-own=NotUnderstood")


def refused_offer(offer: Offer, names: bytes) -> Scene:
    """A login whose first text has one offer more, by which it is refused."""
    key, status = offer
    return login_scene(key, Turn(OPERATIONAL, names + text_of(key.encode()), status=status))


def answered_offers(offers: list[Offer], names: bytes, group: bytes) -> Scene:
    """A login whose first text has the names, and each further one an offer."""
    turns = [Turn(OPERATIONAL, text_of(key.encode()), text_of(answer.encode()) if answer else b"") for key, answer in offers]
    return login_scene(", ".join(key for key, _ in offers), Turn(OPERATIONAL, names, group), *turns)


def key_of(offer: Offer) -> str:
    return offer[0].partition("=")[0]


def logins_of(offers: list[Offer]) -> list[list[Offer]]:
    """Offers that are answered, as few logins have them in which no key is offered twice."""
    logins: list[list[Offer]] = []
    for offer in offers:
        for login in logins:
            if key_of(offer) not in map(key_of, login):
                login.append(offer)
                break
        else:
            logins.append([offer])
    return logins


def scenes_of(shows: str, offers: list[Offer], names: bytes = NAMES, group: bytes = GROUP) -> list[Scene]:
    answered = [offer for offer in offers if isinstance(offer[1], str)]
    refused = [offer for offer in offers if isinstance(offer[1], int)]
    return under(
        shows, *(answered_offers(login, names, group) for login in logins_of(answered)),
        *(refused_offer(offer, names) for offer in refused))


TABLES = [
    Table("keys", [
        *scenes_of("keys are answered by their ranges", [*OF_LOGINS, *OF_DATA, *OF_RECOVERY, *OF_OTHERS]),
        *scenes_of("keys are answered in a discovery session", IN_DISCOVERY, DISCOVERY, b""),
        login_scene("offers are answered one after another", Turn(OPERATIONAL, NAMES + SEVERAL, GROUP + SEVERAL_ANSWERS))])]
