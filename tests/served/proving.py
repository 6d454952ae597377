"""Hosts that have to prove themselves by CHAP, at servers of their own: challenges, and a file of secrets that isn't taken."""
from challenges import challenge_in
from compare import Wrong, holds, lacks, same
from initiator import Initiator
from pdus import NAMES, SECURITY, login, text_of
from play import Row, Tried
from server import Server, refused, secret_words

AT_A_PORTAL = ["--iscsi", "127.0.0.1:0", "--any-host"]
HOST = "iqn.2026-11.example:other"
SECRETS = ["the-hosts-secret", "the-others-secret", "another-secret-1"]


def challenge_at(server: Server) -> bytes:
    """The bytes that one more initiator is challenged with."""
    with Initiator(server.portal()) as initiator:
        initiator.send(login(SECURITY, NAMES + text_of(b"AuthMethod=CHAP", b"CHAP_A=7")))
        text = initiator.gets_any("a challenge").data
    challenge = challenge_in(b"7", text)
    if challenge is None:
        raise Wrong("the challenge", text, "CHAP_C of 32 bytes in hexadecimal")
    return challenge.data


def challenges(tried: Tried) -> None:
    """Two of a server, and two of the one that is started after it (RFC 7143, "CHAP Considerations")."""
    words = secret_words(tried, f"{HOST} other {SECRETS[1]}\n")
    seen: list[bytes] = []
    for _ in range(2):
        with Server(tried, *AT_A_PORTAL, *words, has_socket=False) as server:
            seen += [challenge_at(server), challenge_at(server)]
            server.end()
            server.ends()
    same(f"how many of the challenges {[one.hex() for one in seen]} differ", len(set(seen)), 4)


def user_twice(tried: Tried) -> None:
    """The names differ in their case alone, and no secret is reported."""
    first, second, third = SECRETS
    words = secret_words(tried, f"{HOST} user {first}\n{HOST} USER {second}\n# once more\n{HOST.upper()} user {third}\n")
    status, reported = refused(tried, *AT_A_PORTAL, *words, "--workers", "1")
    same(f"the status after {reported!r}", status, 2)
    holds("what is reported", reported, f"vtl: {words[-1]}, line 4: the host has a line with this user already\n")
    for secret in SECRETS:
        lacks("what is reported", reported, secret)


ROWS = [
    Row("chap-challenges", "no challenge comes twice, from one server or from the next", challenges),
    Row("chap-user-twice", "a file of secrets with a host and user twice isn't taken", user_twice),
]
