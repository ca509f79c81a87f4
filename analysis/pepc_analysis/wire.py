"""What the tables take from octets: GTPv2-C elements of the commands of an MME (TS 29.274), and the size of the IPv4
packet that a line brings (TS 29.281, RFC 791). docs/WIRE.md says which value counts where several stand."""
from typing import Iterator, NamedTuple

CREATE_SESSION, MODIFY_BEARER, DELETE_SESSION, CREATE_BEARER_RESPONSE, RELEASE_BEARERS = 32, 34, 36, 96, 170
IMSI, AMBR, EBI, F_TEID, BEARER_CONTEXT = 1, 72, 73, 87, 93


class Peer(NamedTuple):
    """An eNodeB's end of a tunnel."""

    address: str
    teid: int


class Message(NamedTuple):
    """A GTPv2-C message that the gateway took as a command."""

    type: int
    sequence: int
    body: bytes


def elements(octets: bytes) -> Iterator[tuple[int, int, bytes]]:
    """Type, instance and value of each information element."""
    place = 0
    while place + 4 <= len(octets):
        size = int.from_bytes(octets[place + 1 : place + 3], "big")
        yield octets[place], octets[place + 3] & 15, octets[place + 4 : place + 4 + size]
        place += 4 + size


def message(octets: bytes) -> Message:
    """The head of a message: with a TEID where bit 4 of its first octet is set."""
    end = 4 + int.from_bytes(octets[2:4], "big")
    if octets[0] & 8:
        return Message(octets[1], int.from_bytes(octets[8:11], "big"), octets[12:end])
    return Message(octets[1], int.from_bytes(octets[4:7], "big"), octets[8:end])


def first(octets: bytes, kind: int) -> bytes:
    """The first element of this type and instance 0."""
    return next(value for found, instance, value in elements(octets) if found == kind and instance == 0)


def contexts(octets: bytes) -> Iterator[bytes]:
    """The Bearer Contexts of instance 0."""
    return (value for kind, instance, value in elements(octets) if kind == BEARER_CONTEXT and instance == 0)


def ebi_of(context: bytes) -> int:
    """The EBI of a Context: the first inside its grammar, whatever its instance."""
    return next(
        value[0] & 15 for kind, _, value in elements(context) if kind == EBI and value and not 1 <= value[0] & 15 <= 4
    )


def peer_of(context: bytes) -> Peer | None:
    """The eNodeB of a Context: its first F-TEID of interface 0 that has an IPv4 address."""
    for kind, _, value in elements(context):
        if kind == F_TEID and len(value) >= 9 and value[0] & 0x80 and value[0] & 63 == 0:
            return Peer(".".join(map(str, value[5:9])), int.from_bytes(value[1:5], "big"))
    return None


def imsi_of(body: bytes) -> str:
    """The digits of the IMSI, two an octet, the low half first."""
    return "".join(pair[1] + pair[0] for pair in map("{:02x}".format, first(body, IMSI))).rstrip("f")


def packet_octets(kind: bytes, digits: bytes) -> int:
    """How many octets the IPv4 packet of an `S1U` or `SGI` line has by its own total length."""
    place = 0
    if kind == b"S1U":
        flags, place = int(digits[:2], 16), 16
        if flags & 7:
            place = 24
            following = int(digits[22:24], 16) if flags & 4 else 0
            while following:
                place += int(digits[place : place + 2], 16) * 8
                following = int(digits[place - 2 : place], 16)
    return int(digits[place + 4 : place + 8], 16)
