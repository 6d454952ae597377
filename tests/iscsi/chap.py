"""Logins by CHAP, one way and both ways."""
import base64
import typing

from challenges import MD5, SHA256, Challenge, challenge_in, digest, hexadecimal
from pdus import (
    AUTHENTICATION_FAILURE, CONTINUES, GROUP, INITIATOR_ERROR, NAMES, ON, OPERATIONAL, SECURITY, SKIPS, TO_FULL, let_on, login, text_of)
from scenes import Scene, Table, Turn, login_scene, turn, under
from stage import Stage, Step

# The host has two users, of which one has the target prove itself too; another host has one.
USER, BOTH, OTHERS, TARGETS = b"the-hosts-secret", b"another-secret-1", b"the-others-secret", b"the-targets-secret"
HASH = b"has#in-its-secret"
OTHER_HOST = "iqn.2026-11.example:other"
# What the target is challenged with, and the identifier.
OWN, IDENTIFIER = bytes(range(1, 17)), 17
# What the host begins with, and the method that is agreed. T is held back.
FIRST = NAMES + text_of(b"AuthMethod=CHAP,None")
METHOD = GROUP + text_of(b"AuthMethod=CHAP")
LAST = Turn(TO_FULL, b"")


def secrets(hosts: typing.Iterable[str]) -> str:
    """The file of secrets for the hosts of a table, with blanks and comments too."""
    of_host = (
        "{host} user {user}\n{host} both {both} target {target}\n"
        "\t {host} \t parted  {both} target {target} # the third\r\n{host} hash {hash}\n")
    words = {"user": USER.decode(), "both": BOTH.decode(), "target": TARGETS.decode(), "hash": HASH.decode()}
    return "# none\n\n" + "".join(of_host.format(host=host, **words) for host in hosts) + f"{OTHER_HOST} other {OTHERS.decode()}"


def in_base64(data: bytes) -> bytes:
    return b"0b" + base64.b64encode(data)


# What an answer says, by the challenge.
Says = typing.Callable[[Challenge], bytes]


def challenged(algorithm: bytes, offered: bytes, names: bytes = b"", reported: bytes = b"", number: int = 1) -> Step:
    """The host offers algorithms, and is challenged: by one byte of identifier and 32 of a challenge, whichever these are."""
    def do(stage: Stage) -> None:
        stage.one.send(stage.made(login(SECURITY, names + text_of(b"CHAP_A=" + offered))))
        text = stage.one.gets_any("a challenge").data
        stage.challenge = challenge_in(algorithm, text) or Challenge(algorithm, 0, bytes(32))
        asked = text_of(
            b"CHAP_A=" + algorithm, b"CHAP_I=%d" % stage.challenge.identifier, b"CHAP_C=" + hexadecimal(stage.challenge.data))
        stage.one.compares(let_on(SECURITY, reported + asked, (number, 1, 32)), "the challenge")

    return do


BY_SHA256 = [*turn(0, Turn(ON, FIRST, METHOD, back=SECURITY)), challenged(SHA256, b"5,7")]
BY_MD5 = [*turn(0, Turn(ON, FIRST, METHOD, back=SECURITY)), challenged(MD5, b"5")]


def answer(flags: int, says: Says, reported: Says = lambda _: b"", back: int | None = None, status: int = 0) -> Turn:
    """A turn whose texts go by the challenge."""
    return Turn(flags, lambda stage: says(stage.challenge), lambda stage: reported(stage.challenge), back, status)


def proof(user: bytes, secret: bytes, *more: bytes) -> Says:
    """A user and what its secret makes of the challenge."""
    return lambda challenge: text_of(b"CHAP_N=" + user, b"CHAP_R=" + hexadecimal(challenge.digest(secret)), *more)


def chap_scene(shows: str, begun: list[Step], *turns: Turn, first: int = 2) -> Scene:
    """A login by CHAP, after what has begun it, whose next response has this StatSN."""
    scene = login_scene(shows, *turns)
    return scene._replace(steps=[*begun, *(step for number, of in enumerate(turns, first) for step in turn(number, of))])


def both_ways(
        algorithm: bytes, identifier: int = IDENTIFIER, challenge: bytes | None = None, as_identifier: bytes | None = None,
        user: bytes = b"both") -> Turn:
    """The host challenges the target too, which proves itself."""
    asks = [b"CHAP_I=" + (as_identifier or b"%d" % identifier), b"CHAP_C=" + (challenge or hexadecimal(OWN))]
    proves = text_of(b"CHAP_N=target", b"CHAP_R=" + hexadecimal(digest(algorithm, identifier, TARGETS, OWN)))
    return answer(ON, proof(user, BOTH, *asks), lambda _: proves)


USER_PROOF, BOTH_PROOF = proof(b"user", USER), proof(b"both", BOTH)
OWN_CHALLENGE = [b"CHAP_I=17", b"CHAP_C=" + hexadecimal(OWN)]

LET_IN = [
    *under(
        "a host proves itself",
        chap_scene("by SHA-256", BY_SHA256, answer(ON, USER_PROOF), LAST),
        chap_scene("by SHA-256 in capital letters, and straight to full feature", BY_SHA256, answer(
            SKIPS, lambda challenge: text_of(b"CHAP_N=user", b"CHAP_R=" + hexadecimal(challenge.digest(USER)).upper()))),
        chap_scene("by SHA-256 in base64, and T by a request of its own", BY_SHA256, answer(
            SECURITY, lambda challenge: text_of(b"CHAP_N=user", b"CHAP_R=" + in_base64(challenge.digest(USER)))), Turn(ON, b""), LAST),
        chap_scene("by MD5", BY_MD5, answer(
            ON, lambda challenge: text_of(b"CHAP_R=" + hexadecimal(challenge.digest(USER)), b"CHAP_N=user")), LAST),
        chap_scene(
            "by MD5 in base64, in pieces", BY_MD5, Turn(CONTINUES, b"CHAP_N=user\0CHAP_R=0b", back=SECURITY),
            answer(ON, lambda challenge: text_of(in_base64(challenge.digest(USER)).removeprefix(b"0b"))), LAST),
        chap_scene(
            "the method and the algorithms in one text",
            [challenged(MD5, b"5", NAMES + text_of(b"AuthMethod=CHAP"), METHOD, 0)], answer(ON, USER_PROOF), LAST, first=1)),
    *under(
        "a host and the target prove themselves",
        chap_scene("both ways by SHA-256", BY_SHA256, both_ways(SHA256), LAST),
        chap_scene("by the greatest identifier", BY_SHA256, both_ways(SHA256, 255), LAST),
        chap_scene("one way, by the user for both", BY_SHA256, answer(ON, BOTH_PROOF), LAST),
        chap_scene(
            "its own challenge behind its answer", BY_SHA256, answer(SECURITY, BOTH_PROOF),
            Turn(ON, text_of(*OWN_CHALLENGE), back=SECURITY, status=INITIATOR_ERROR)),
        chap_scene(
            "both ways by MD5, with a challenge in base64", BY_MD5, both_ways(MD5, challenge=in_base64(OWN), as_identifier=b"0x11"), LAST)),
    *under(
        "binary values are hexadecimal or base64",
        chap_scene("in letters of both kinds", BY_SHA256, both_ways(SHA256, challenge=hexadecimal(OWN).replace(b"a", b"A")), LAST),
        chap_scene("in capital letters", BY_SHA256, both_ways(SHA256, challenge=hexadecimal(OWN).upper()), LAST),
        chap_scene("in base64, with a capital B", BY_SHA256, both_ways(SHA256, challenge=in_base64(OWN).replace(b"0b", b"0B", 1)), LAST)),
    *under(
        "words of the file of secrets are parted by blanks",
        chap_scene("a line with blanks, a comment and CR", BY_SHA256, both_ways(SHA256, user=b"parted"), LAST),
        chap_scene("a secret with a number sign", BY_SHA256, answer(ON, proof(b"hash", HASH)), LAST)),
    *under(
        "an algorithm is chosen from a list",
        chap_scene("SHA-256 first, by a hexadecimal number", [*BY_SHA256[:2], challenged(SHA256, b"5,0x7")], answer(ON, USER_PROOF), LAST),
        chap_scene("MD5 alone", [*BY_SHA256[:2], challenged(MD5, b"5,6")], answer(ON, USER_PROOF), LAST)),
]

BEGUN = Turn(ON, FIRST, METHOD, back=SECURITY)

WRONG_WAYS = [
    *under(
        "other ways through chap lead nowhere",
        login_scene(
            "no method that is asked for",
            Turn(ON, NAMES + text_of(b"AuthMethod=None"), back=SECURITY, status=AUTHENTICATION_FAILURE)),
        login_scene("no method, and on", Turn(ON, NAMES, back=SECURITY, status=AUTHENTICATION_FAILURE)),
        login_scene("no security negotiation", Turn(TO_FULL, NAMES, back=OPERATIONAL, status=AUTHENTICATION_FAILURE)),
        login_scene("no algorithm that is known", BEGUN, Turn(SECURITY, text_of(b"CHAP_A=6,8"), status=AUTHENTICATION_FAILURE)),
        login_scene("no algorithm, of two digits", BEGUN, Turn(SECURITY, text_of(b"CHAP_A=55,8"), status=AUTHENTICATION_FAILURE)),
        login_scene(
            "an algorithm before a method is agreed", Turn(SECURITY, NAMES, GROUP),
            Turn(SECURITY, text_of(b"CHAP_A=7"), status=AUTHENTICATION_FAILURE)),
        login_scene(
            "an answer before the challenge", BEGUN,
            Turn(ON, text_of(b"CHAP_N=user", b"CHAP_R=" + hexadecimal(digest(SHA256, IDENTIFIER, USER, OWN))),
                 back=SECURITY, status=AUTHENTICATION_FAILURE))),
    *under(
        "other ways on from the challenge lead nowhere",
        chap_scene("operational negotiation without an answer", BY_SHA256, Turn(TO_FULL, b"", back=OPERATIONAL, status=INITIATOR_ERROR)),
        chap_scene("an algorithm again", BY_SHA256, Turn(SECURITY, text_of(b"CHAP_A=5"), status=INITIATOR_ERROR)),
        chap_scene("T without an answer is held back", BY_SHA256, Turn(SKIPS, b"", back=SECURITY))),
]


def another_digit(data: bytes, place: int) -> bytes:
    """Another hexadecimal digit at a place of its digits."""
    digits = data.hex()
    return b"0x" + (digits[:place] + f"{int(digits[place], 16) ^ 1:x}" + digits[place + 1:]).encode()


def of_user(value: typing.Callable[[Challenge], bytes]) -> Says:
    return lambda challenge: text_of(b"CHAP_N=user", b"CHAP_R=" + value(challenge))


def by_both(*more: bytes, secret: bytes = BOTH) -> Says:
    return proof(b"both", secret, *more)


# Answers to the challenge, by SHA-256, that are denied.
WRONG_ANSWERS: list[tuple[str, Says]] = [
    ("another first digit", of_user(lambda challenge: another_digit(challenge.digest(USER), 0))),
    ("another last digit", of_user(lambda challenge: another_digit(challenge.digest(USER), 63))),
    ("a digest of another identifier", of_user(lambda challenge: hexadecimal(challenge.digest(USER, identifier=challenge.identifier ^ 1)))),
    ("a digest by the other algorithm", of_user(lambda challenge: hexadecimal(challenge.digest(USER, MD5)))),
    ("a digest cut short", of_user(lambda challenge: hexadecimal(challenge.digest(USER)[:4]))),
    ("a digest with a byte more", of_user(lambda challenge: hexadecimal(challenge.digest(USER) + b"s"))),
    ("half a byte less", of_user(lambda challenge: hexadecimal(challenge.digest(USER))[:-1])),
    ("a part of base64", of_user(lambda challenge: in_base64(challenge.digest(USER))[:-1])),
    ("a digest without 0x", of_user(lambda challenge: challenge.digest(USER).hex().encode())),
    ("no value", of_user(lambda _: b"")),
    ("a digit alone", of_user(lambda _: b"0")),
    ("no digest", of_user(lambda _: b"0x")),
    ("a digest in decimal", of_user(lambda _: b"1234")),
    ("another user of the host", proof(b"both", USER)),
    ("a user that there isn't", proof(b"nobody", USER)),
    ("another host's user", proof(b"other", OTHERS)),
    ("an answer without a user", lambda challenge: text_of(b"CHAP_R=" + hexadecimal(challenge.digest(USER)))),
    ("a user without an answer", lambda _: text_of(b"CHAP_N=user")),
    ("a challenge to a target that has no secret", proof(b"user", USER, *OWN_CHALLENGE)),
    ("the target's own challenge", lambda challenge: by_both(b"CHAP_I=17", b"CHAP_C=" + hexadecimal(challenge.data))(challenge)),
    ("an identifier without a challenge", by_both(b"CHAP_I=17")),
    ("a challenge without an identifier", by_both(b"CHAP_C=" + hexadecimal(OWN))),
    ("an identifier of more than a byte", by_both(b"CHAP_I=256", b"CHAP_C=" + hexadecimal(OWN))),
    ("an empty challenge", by_both(b"CHAP_I=17", b"CHAP_C=0x")),
    ("a challenge behind a wrong answer", by_both(*OWN_CHALLENGE, secret=USER)),
    ("a challenge alone", lambda _: text_of(*OWN_CHALLENGE)),
]

DENIED_ALIKE = under("wrong answers are denied all alike", *(
    chap_scene(shows, BY_SHA256, answer(ON, says, back=SECURITY, status=AUTHENTICATION_FAILURE)) for shows, says in WRONG_ANSWERS))

# Of a target that takes SHA-256 alone.
WITHOUT_MD5 = under(
    "md5 is never taken where sha-256 alone is",
    login_scene("MD5 alone is refused", BEGUN, Turn(SECURITY, text_of(b"CHAP_A=5"), status=AUTHENTICATION_FAILURE)),
    login_scene("MD5 by a hexadecimal number is refused", BEGUN, Turn(SECURITY, text_of(b"CHAP_A=0x5"), status=AUTHENTICATION_FAILURE)),
    login_scene("MD5 with unknown algorithms is refused", BEGUN, Turn(SECURITY, text_of(b"CHAP_A=6,5"), status=AUTHENTICATION_FAILURE)),
    chap_scene("SHA-256 behind MD5", BY_SHA256, answer(ON, USER_PROOF), LAST),
    chap_scene("SHA-256 before MD5", [*BY_SHA256[:2], challenged(SHA256, b"7,5")], answer(ON, USER_PROOF), LAST),
    chap_scene("SHA-256 alone, both ways", [*BY_SHA256[:2], challenged(SHA256, b"7")], both_ways(SHA256), LAST),
    chap_scene(
        "a digest by MD5 for a challenge by SHA-256", BY_SHA256,
        answer(ON, of_user(lambda challenge: hexadecimal(challenge.digest(USER, MD5))), back=SECURITY, status=AUTHENTICATION_FAILURE)))

TABLES = [
    Table("hosts that prove themselves", [*LET_IN, *WRONG_WAYS, *DENIED_ALIKE], secrets=secrets),
    Table("hosts that prove themselves by SHA-256 alone", WITHOUT_MD5, words=["--chap-digests", "sha256"], secrets=secrets)]
