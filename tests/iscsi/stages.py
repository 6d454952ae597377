"""The stages of a login, and texts in pieces."""
from pdus import (
    CONTINUES, DISCOVERY, FULL_FEATURE, GROUP, HOST, INITIATOR, INITIATOR_ERROR, NAMES, NEXT_FULL, NEXT_NONE, NEXT_OPERATIONAL, NORMAL,
    NOT_FOUND, NO_STAGE, OF_TARGET, ON, OPERATIONAL, PLAYED_BY, SECURITY, SKIPS, TO_FULL, TRANSIT, text_of)
from scenes import Table, Turn, login_scene, under

# Security negotiation is left for operational negotiation, and that for full feature.
NAMED, LAST = Turn(ON, NAMES, GROUP), Turn(TO_FULL, b"")
NAMED_DISCOVERY = text_of(INITIATOR, OF_TARGET, b"SessionType=Discovery")

# The initiator takes 512 bytes, and its keys are answered by 602.
KEYS = text_of(b"MaxRecvDataSegmentLength=512", *(b"X-%02d=1" % number for number in range(30)))
ANSWERS = text_of(b"MaxRecvDataSegmentLength=262144", *(b"X-%02d=NotUnderstood" % number for number in range(30)))

# What leads from a stage, and what doesn't.
STAGES = [
    *under(
        "stages lead on and never back",
        login_scene("one stage after the other", NAMED, LAST),
        login_scene("operational negotiation is skipped", Turn(SKIPS, NAMES, GROUP)),
        login_scene("security negotiation is skipped", Turn(TO_FULL, NAMES, GROUP)),
        login_scene(
            "several requests of a stage", Turn(SECURITY, NAMES, GROUP),
            Turn(SECURITY, text_of(b"AuthMethod=None"), text_of(b"AuthMethod=None")), Turn(ON, b""),
            Turn(OPERATIONAL, text_of(b"MaxConnections=1"), text_of(b"MaxConnections=1")), LAST),
        login_scene("full feature after several requests of security negotiation", Turn(SECURITY, NAMES, GROUP), Turn(SKIPS, b"")),
        login_scene("without T a next stage says nothing", Turn(OPERATIONAL | NEXT_FULL, NAMES, GROUP, back=OPERATIONAL), LAST)),
    *under(
        "no other way leads from a stage",
        login_scene("back", Turn(TRANSIT | OPERATIONAL, NAMES, back=OPERATIONAL, status=INITIATOR_ERROR)),
        login_scene("to the stage itself", Turn(TRANSIT, NAMES, back=SECURITY, status=INITIATOR_ERROR)),
        login_scene(
            "to the later stage itself", Turn(TRANSIT | OPERATIONAL | NEXT_OPERATIONAL, NAMES, back=OPERATIONAL, status=INITIATOR_ERROR)),
        login_scene("to no stage", Turn(TRANSIT | NEXT_NONE, NAMES, back=SECURITY, status=INITIATOR_ERROR)),
        login_scene("of no stage", Turn(TRANSIT | NO_STAGE | NEXT_FULL, NAMES, back=NO_STAGE, status=INITIATOR_ERROR)),
        login_scene("of full feature", Turn(FULL_FEATURE, NAMES, status=INITIATOR_ERROR)),
        login_scene("security negotiation again", NAMED, Turn(SECURITY, b"", status=INITIATOR_ERROR)),
        login_scene(
            "operational negotiation before security negotiation was left", Turn(SECURITY, NAMES, GROUP),
            Turn(TO_FULL, b"", back=OPERATIONAL, status=INITIATOR_ERROR)),
        login_scene("T with C", Turn(TRANSIT | CONTINUES | NEXT_OPERATIONAL, NAMES, back=SECURITY, status=INITIATOR_ERROR)),
        login_scene(
            "a text without its last NUL", Turn(CONTINUES, NAMES, back=SECURITY),
            Turn(ON, b"AuthMethod=None", back=SECURITY, status=INITIATOR_ERROR)),
        login_scene(
            "a text that begins anew", Turn(CONTINUES, NAMES, back=SECURITY),
            Turn(ON, NAMES, back=SECURITY, status=INITIATOR_ERROR))),
]

# A text that is cut within a key, within a value and before a NUL, in the stage of security and the other; and the portal group, which is
# reported with the first response to an initiator that names the target, and never again.
PIECES = [
    *under(
        "a text may be cut anywhere",
        login_scene(
            "the first text in pieces", Turn(CONTINUES, b"InitiatorNa", back=SECURITY),
            Turn(CONTINUES, b"me=" + HOST.removesuffix(PLAYED_BY), back=SECURITY),
            Turn(CONTINUES, PLAYED_BY + b"\0" + OF_TARGET + b"\0" + NORMAL, back=SECURITY), Turn(CONTINUES, b"", back=SECURITY),
            Turn(ON, text_of(b"", b"AuthMethod=None"), GROUP + text_of(b"AuthMethod=None")), LAST),
        login_scene(
            "a later text in pieces", NAMED, Turn(CONTINUES | OPERATIONAL, b"MaxBurst", back=OPERATIONAL),
            Turn(CONTINUES | OPERATIONAL, b"Length=512\0MaxConnections=", back=OPERATIONAL),
            Turn(TO_FULL, text_of(b"1"), text_of(b"MaxBurstLength=512", b"MaxConnections=1"))),
        login_scene(
            "a key twice, in two texts", NAMED, Turn(OPERATIONAL, text_of(b"MaxConnections=1"), text_of(b"MaxConnections=1")),
            Turn(TO_FULL, text_of(b"MaxConnections=1"), back=OPERATIONAL, status=INITIATOR_ERROR))),
    *under(
        "the portal group is told who names the target",
        login_scene("a discovery session that names the target", Turn(TO_FULL, NAMED_DISCOVERY, GROUP)),
        login_scene("a discovery session that names none", Turn(TO_FULL, DISCOVERY)),
        login_scene(
            "the target is named in pieces",
            Turn(CONTINUES | OPERATIONAL, INITIATOR + b"\0TargetN", back=OPERATIONAL),
            Turn(TO_FULL, text_of(OF_TARGET.removeprefix(b"TargetN"), b"SessionType=Discovery"), GROUP)),
        login_scene("a discovery session that names the target again", Turn(ON, NAMED_DISCOVERY, GROUP), Turn(TO_FULL, NAMED_DISCOVERY)),
        login_scene(
            "a discovery session that names another target",
            Turn(TO_FULL, text_of(INITIATOR, b"TargetName=iqn.2026-11.localhost:other", b"SessionType=Discovery"),
                back=OPERATIONAL, status=NOT_FOUND))),
]

# FirstBurstLength is reported as no more than the burst that is agreed before it, and MaxBurstLength as it is offered; and answers in
# pieces.
BURSTS = [
    *under(
        "a first burst is no longer than a burst",
        login_scene(
            "a burst, and behind it a longer first burst in the same text", NAMED,
            Turn(TO_FULL, text_of(b"MaxBurstLength=8192", b"FirstBurstLength=65536"),
                text_of(b"MaxBurstLength=8192", b"FirstBurstLength=8192"))),
        login_scene(
            "a burst, and a first burst as long", NAMED,
            Turn(TO_FULL, text_of(b"MaxBurstLength=8192", b"FirstBurstLength=8192"),
                text_of(b"MaxBurstLength=8192", b"FirstBurstLength=8192"))),
        login_scene(
            "a burst, and a longer first burst in a later text", NAMED,
            Turn(OPERATIONAL, text_of(b"MaxBurstLength=8192"), text_of(b"MaxBurstLength=8192")),
            Turn(TO_FULL, text_of(b"FirstBurstLength=65536"), text_of(b"FirstBurstLength=8192"))),
        login_scene(
            "a first burst, and behind it a shorter burst in the same text", NAMED,
            Turn(TO_FULL, text_of(b"FirstBurstLength=65536", b"MaxBurstLength=8192"),
                text_of(b"FirstBurstLength=65536", b"MaxBurstLength=8192"))),
        login_scene(
            "a first burst, and a shorter burst in a later text", NAMED,
            Turn(OPERATIONAL, text_of(b"FirstBurstLength=65536"), text_of(b"FirstBurstLength=65536")),
            Turn(TO_FULL, text_of(b"MaxBurstLength=8192"), text_of(b"MaxBurstLength=8192"))),
        login_scene(
            "a longer burst than the target's, and a first burst as long", NAMED,
            Turn(TO_FULL, text_of(b"MaxBurstLength=16776192", b"FirstBurstLength=16776192"),
                text_of(b"MaxBurstLength=1048576", b"FirstBurstLength=262144"))),
        login_scene(
            "a first burst alone, no longer than the burst of the default", NAMED,
            Turn(TO_FULL, text_of(b"FirstBurstLength=16777215"), text_of(b"FirstBurstLength=262144"))),
        login_scene("a burst alone", NAMED, Turn(TO_FULL, text_of(b"MaxBurstLength=512"), text_of(b"MaxBurstLength=512")))),
    *under(
        "nor than one that was agreed early",
        login_scene(
            "a burst in security negotiation, and a longer first burst behind it",
            Turn(ON, text_of(INITIATOR, OF_TARGET, b"MaxBurstLength=1024"), GROUP + text_of(b"MaxBurstLength=1024")),
            Turn(TO_FULL, text_of(b"FirstBurstLength=0x400000"), text_of(b"FirstBurstLength=1024")))),
    *under(
        "a long answer goes out in pieces",
        login_scene(
            "an answer in pieces holds T back", NAMED, Turn(TO_FULL, KEYS, ANSWERS[:512], back=CONTINUES | OPERATIONAL),
            Turn(TO_FULL, b"", ANSWERS[512:])),
        login_scene(
            "the last piece goes without T where none is asked for", NAMED,
            Turn(OPERATIONAL, KEYS, ANSWERS[:512], back=CONTINUES | OPERATIONAL), Turn(OPERATIONAL, b"", ANSWERS[512:]), LAST),
        login_scene(
            "a text while a piece is to be asked for", NAMED, Turn(TO_FULL, KEYS, ANSWERS[:512], back=CONTINUES | OPERATIONAL),
            Turn(TO_FULL, text_of(b"MaxConnections=1"), back=OPERATIONAL, status=INITIATOR_ERROR))),
]

# The most bytes of a text, and one more.
LONG_TEXTS = [
    *under(
        "a text of a login has an end",
        login_scene(
            "a text of 65,537 bytes", Turn(CONTINUES, b"X" * 65536, back=SECURITY),
            Turn(CONTINUES, b"X", back=SECURITY, status=INITIATOR_ERROR))),
]

TABLES = [Table("stages of logins", [*STAGES, *PIECES, *BURSTS, *LONG_TEXTS])]
