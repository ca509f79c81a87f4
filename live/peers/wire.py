"""What went over the wire, and what the report says of it: each message that it tells, once, and no other."""
import collections
import pathlib
import re
import struct
import subprocess
from typing import Iterator

from peers.network import GATEWAY, STRANGER

ETHERNET, RAW_IP, LINKTYPE_RAW = 1, 12, 101
UDP, S11_PORT, S1U_PORT = 17, 2123, 2152
END_MARKER = 254
Sent = collections.Counter  # of (place, octets): an address for GTP-U, "S11", or "SGI"

TO_ENODEB = re.compile(
    rb"^(?:P \d+ \d+ \d+ \d+ down \d+|H \d+ \d+ \d+ down \d+|M \d+ \d+ \d+) ([\d.]+) ([0-9a-f]+)$", re.M
)
TO_MME = re.compile(
    rb"^(?:P \d+ \d+ \d+ \d+ held \d+|C \d+ \d+ \d+ \w+|N \d+ s11 [a-z]+(?: \d+ \d+)?) ([0-9a-f]{16,})$", re.M
)
TO_PEER = re.compile(rb"^N \d+ s1u (?:echo|unknown) ([0-9a-f]+)$", re.M)
TO_INTERNET = re.compile(rb"^P \d+ \d+ \d+ \d+ up \d+ ([0-9a-f]+)$", re.M)


def told(report: bytes) -> Sent:
    """All messages that a report tells."""
    found: Sent = collections.Counter()
    found.update((address.decode(), bytes.fromhex(octets.decode())) for address, octets in TO_ENODEB.findall(report))
    for place, form in (("S11", TO_MME), ("S1U", TO_PEER), ("SGI", TO_INTERNET)):
        found.update((place, bytes.fromhex(octets.decode())) for octets in form.findall(report))
    return found


def packets(capture: pathlib.Path) -> Iterator[bytes]:
    """The IPv4 packets of a classic capture."""
    octets = capture.read_bytes()
    link = struct.unpack_from("<I", octets, 20)[0]
    place = 24
    while place + 16 <= len(octets):
        length = struct.unpack_from("<I", octets, place + 8)[0]
        frame = octets[place + 16 : place + 16 + length]
        place += 16 + length
        if link == ETHERNET and frame[12:14] == b"\x08\x00":
            yield frame[14:]
        elif link in (RAW_IP, LINKTYPE_RAW) and frame[0] >> 4 == 4:
            yield frame


def seen(s1: pathlib.Path, sgi: pathlib.Path) -> Sent:
    """All messages of the gateway in the captures of S1 and of its TUN device."""
    found: Sent = collections.Counter()
    gateway = bytes(map(int, GATEWAY.split(".")))
    for packet in packets(s1):
        if packet[12:16] == gateway and packet[9] == UDP:
            head = (packet[0] & 15) * 4
            source, port, length = struct.unpack_from("!HHH", packet, head)
            message = packet[head + 8 : head + length]
            if source == S11_PORT:
                found["S11", message] += 1
            elif source == S1U_PORT:
                is_answer = message[1] in (2, 26)
                found["S1U" if is_answer else ".".join(map(str, packet[16:20])), message] += 1
    for packet in packets(sgi):
        if packet[12:14] == bytes((10, 45)):
            found["SGI", packet[: int.from_bytes(packet[2:4])]] += 1
    return found


def dissected(captures: list[pathlib.Path]) -> tuple[list[str], list[tuple[str, str]]]:
    """By tshark, of each capture by itself (a stream that stands twice in one confuses it): the protocols of each frame
    that is malformed, but the stranger's, and each End Marker's receiver and TEID."""
    fields = ("_ws.malformed", "gtp.message", "ip.dst", "gtp.teid", "frame.protocols")
    words = [word for field in fields for word in ("-e", field)]
    wanted = f"(_ws.malformed && !(ip.src == {STRANGER})) || gtp.message == {END_MARKER}"
    rows = []
    for capture in captures:
        said = run("tshark", "-n", "-r", str(capture), "-Y", wanted, "-T", "fields", *words)
        rows += [line.split("\t") for line in said.splitlines()]
    markers = [(row[2], row[3]) for row in rows if row[1] and int(row[1], 0) == END_MARKER]
    return [row[4] for row in rows if row[0]], markers


def run(*words: str) -> str:
    """What a command writes, that has to succeed."""
    ran = subprocess.run(words, capture_output=True, text=True)
    if ran.returncode:
        raise RuntimeError(f"{words[0]}: {ran.stderr.strip()}")
    return ran.stdout
