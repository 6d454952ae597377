"""Challenges of CHAP, and what answers them (RFC 1994; RFC 7143, "CHAP Considerations"). The digests are those of hashlib."""
import hashlib
import re
import typing

# Algorithms by their numbers (IANA, "PPP Authentication Algorithms").
SHA256, MD5 = b"7", b"5"
DIGESTS = {SHA256: hashlib.sha256, MD5: hashlib.md5}


def digest(algorithm: bytes, identifier: int, secret: bytes, data: bytes) -> bytes:
    return DIGESTS[algorithm](bytes([identifier]) + secret + data).digest()


def hexadecimal(data: bytes) -> bytes:
    return b"0x" + data.hex().encode()


class Challenge(typing.NamedTuple):
    """The challenge of a login: by which algorithm, its identifier and its bytes, as the target has reported them."""

    algorithm: bytes
    identifier: int
    data: bytes

    def digest(self, secret: bytes, algorithm: bytes | None = None, identifier: int | None = None) -> bytes:
        """What answers it."""
        return digest(algorithm or self.algorithm, self.identifier if identifier is None else identifier, secret, self.data)


def challenge_in(algorithm: bytes, text: bytes) -> Challenge | None:
    """The challenge in a text, where one of 32 bytes is there."""
    found = re.search(rb"CHAP_I=([0-9]{1,3})\0CHAP_C=0x([0-9a-f]{64})\0", text)
    return Challenge(algorithm, int(found[1]), bytes.fromhex(found[2].decode())) if found else None
