"""What the page shows: counts of what the core said, and what each subscriber was told last. It only looks on."""
import collections
import itertools
import threading
from typing import Any

from shell.lines import FromMme, FromOperator

SECONDS = 180  # of the plots
MOST_ROWS = 500  # of the table
LAST_ENTRIES = 12  # kept of each subscriber
LONGEST_ENTRY = 160
CREATE_SESSION_REQUEST, DELETE_SESSION_REQUEST = 32, 36
NAMES = {b"P": "packets", b"H": "held packets' fates", b"M": "End Markers", b"C": "commands", b"R": "charging records"}


class Subscriber:
    """What is known of a slot from what passed by."""

    __slots__ = ("imsi", "attached", "mme", "up", "down", "verdicts", "last")

    def __init__(self) -> None:
        self.imsi, self.attached, self.mme = "", False, ""
        self.up = self.down = 0
        self.verdicts: collections.Counter[str] = collections.Counter()
        self.last: collections.deque[bytes] = collections.deque(maxlen=LAST_ENTRIES)


class Tally:
    """The counts of a session, and of its last seconds."""

    def __init__(self) -> None:
        self.lock = threading.Lock()
        self.subscribers: collections.defaultdict[int, Subscriber] = collections.defaultdict(Subscriber)
        self.verdicts: collections.Counter[str] = collections.Counter()
        self.notes: collections.Counter[str] = collections.Counter()
        self.kinds: collections.Counter[str] = collections.Counter()
        self.up = self.down = 0
        self.seconds: collections.deque[dict[str, int]] = collections.deque(maxlen=SECONDS)
        self.before: dict[str, int] = self.now()

    def entry(self, fields: list[bytes], entry: bytes, source: Any) -> None:
        """Counts one entry; the lock is the caller's."""
        kind = fields[0]
        if kind == b"N":
            if fields[2] == b"fence":
                self.kinds["batches"] += 1
                return
            words = [word.decode() for word in fields[2:] if not word.isdigit()]
            hidden = words[:1] == ["s11"] or words[1:2] in (["echo"], ["unknown"])
            self.notes[" ".join(words[:2] if hidden else words)] += 1
            return
        slot = int(fields[1] if kind in (b"H", b"M", b"R", b"O") else fields[2])
        subscriber = self.subscribers[slot]
        subscriber.last.append(entry[:LONGEST_ENTRY])
        if kind in NAMES:
            self.kinds[NAMES[kind]] += 1
        if kind == b"P":
            self.verdict(subscriber, fields[5].decode(), fields[-1])
        elif kind == b"H":
            self.verdict(subscriber, fields[4].decode(), fields[-1])
        elif kind == b"C":
            self.command(subscriber, fields[4] == b"ok", source)

    def verdict(self, subscriber: Subscriber, word: str, text: bytes) -> None:
        subscriber.verdicts[word] += 1
        self.verdicts[word] += 1
        if word == "up":
            octets = len(text) // 2
            subscriber.up += octets
            self.up += octets
        elif word == "down":
            octets = len(text) // 2 - 8  # less the head of GTP-U
            subscriber.down += octets
            self.down += octets

    def command(self, subscriber: Subscriber, done: bool, source: Any) -> None:
        """Who is attached: by the types of the messages that were answered, and by ATTACH."""
        if type(source) is FromMme:
            subscriber.mme = source.address[0]
            if source.octets[1] == CREATE_SESSION_REQUEST:
                subscriber.imsi = imsi_of(source.octets) or subscriber.imsi
                subscriber.attached |= done
            elif source.octets[1] == DELETE_SESSION_REQUEST:
                subscriber.attached &= not done
        elif type(source) is FromOperator and source.text.startswith(b"ATTACH "):
            subscriber.imsi, subscriber.attached, subscriber.mme = source.text.split(b" ")[1].decode(), done, ""

    def now(self) -> dict[str, int]:
        return {"octets up": self.up, "octets down": self.down, **self.verdicts, "notes": self.notes.total()}

    def tick(self) -> None:
        """Ends a second of the plots."""
        with self.lock:
            now = self.now()
            self.seconds.append({name: count - self.before.get(name, 0) for name, count in now.items()})
            self.before = now

    def snapshot(self, chosen: int | None, asked: str) -> dict[str, Any]:
        """All of it: subscribers whose IMSI or address has the text asked for, as many as a page shows, and the last
        entries of the one that is chosen."""
        with self.lock:
            fitting = (
                (slot, it)
                for slot, it in sorted(self.subscribers.items())
                if asked in it.imsi or asked in address_of(slot)
            )
            rows = [
                {
                    "slot": slot,
                    "imsi": it.imsi,
                    "address": address_of(slot),
                    "attached": it.attached,
                    "mme": it.mme,
                    "up": it.up,
                    "down": it.down,
                    "verdicts": dict(it.verdicts),
                }
                for slot, it in itertools.islice(fitting, MOST_ROWS)
            ]
            last = [it.decode() for it in self.subscribers[chosen].last] if chosen in self.subscribers else []
            return {
                "subscribers": rows,
                "attached": sum(it.attached for it in self.subscribers.values()),
                "verdicts": dict(self.verdicts),
                "notes": dict(self.notes),
                "kinds": dict(self.kinds),
                "seconds": list(self.seconds),
                "chosen": chosen,
                "last": last,
            }


def address_of(slot: int) -> str:
    """The subscriber's address (docs/WIRE.md, Identities and addresses)."""
    return f"10.45.{(slot + 2) >> 8}.{(slot + 2) & 255}"


def imsi_of(message: bytes) -> str:
    """The digits of the IMSI in a Create Session Request (TS 29.274, 8.3); empty where there is none."""
    place = 12 if message[0] & 8 else 8
    while place + 4 <= len(message):
        length = int.from_bytes(message[place + 1 : place + 3])
        if message[place] == 1:
            digits = "".join(f"{octet & 15:x}{octet >> 4:x}" for octet in message[place + 4 : place + 4 + length])
            return digits.rstrip("f")
        place += 4 + length
    return ""
