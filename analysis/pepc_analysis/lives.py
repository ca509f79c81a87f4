"""When bearers begin, get or lose their eNodeB, and end. A report tells lives, but not the lines where this happens: it
follows from the commands and their outcomes by the control table (docs/GATEWAY.md, Sessions and the control table)."""
from . import wire
from .wire import Peer

MOST_RATE = 2**40 - 1
GUARANTEED = range(1, 5)  # QCIs of a guaranteed rate: their own rate counts, and not the AMBR


class Misfit(Exception):
    """A command whose outcome or fields aren't possible here."""


class Bearer:
    """An asked (no EBI) or active bearer of a slot."""

    def __init__(self, life: int, ebi: int | None, peer: Peer | None):
        self.life, self.ebi, self.peer = life, ebi, peer
        self.sequence: int | None = None
        self.rates: tuple[int, int] | None = None


class Slot:
    """A subscriber: its bearers by index, and how many lives it had."""

    def __init__(self) -> None:
        self.lives = 0
        self.bearers: dict[int, Bearer] = {}

    def active(self, ebi: int) -> Bearer:
        """The active bearer of this EBI."""
        for bearer in self.bearers.values():
            if bearer.ebi == ebi:
                return bearer
        raise Misfit(f"the subscriber has no active bearer of EBI {ebi}")

    def asked(self, sequence: int) -> int | None:
        """The least index of a bearer that is asked under this number."""
        return min(
            (index for index, bearer in self.bearers.items() if bearer.ebi is None and bearer.sequence == sequence),
            default=None,
        )


class Lives:
    """Follows the commands of all slots, and keeps the rows of `bearer_event` and `rate` until they are taken."""

    def __init__(self) -> None:
        self.slots: dict[int, Slot] = {}
        self.imsis: dict[int, str] = {}
        self.events: list[tuple] = []
        self.rates: list[tuple] = []

    def admit(self, slot: int, kind: bytes, fields: list[bytes]) -> None:
        """Keeps the IMSI of a slot whose first command this line is, also where its queue was full."""
        if slot not in self.imsis:
            if kind == b"ATTACH":
                self.imsis[slot] = fields[2].decode()
            elif kind == b"S11":
                message = wire.message(bytes.fromhex(fields[2].decode()))
                if message.type == wire.CREATE_SESSION:
                    self.imsis[slot] = wire.imsi_of(message.body)

    def take(
        self, slot: int, number: int, line: int, moment: int, kind: bytes, fields: list[bytes], outcome: str
    ) -> None:
        """What a command does to the lives of its slot; repeats and refusals do nothing, but for an answer that lets
        an asked bearer go."""
        if outcome == "again":
            return
        own = self.slots.get(slot)
        if own is None:
            own = self.slots[slot] = Slot()
        self.place = (line, moment, slot)
        self.number = number
        done = outcome == "ok"
        if kind == b"S11":
            self.message(own, wire.message(bytes.fromhex(fields[2].decode())), done)
        elif not done:
            return
        elif kind == b"ATTACH":
            self.rate(None, int(fields[5]), int(fields[6]))
            self.attach(
                own, 5, Peer(fields[3].decode(), int.from_bytes(bytes.fromhex(fields[4].decode())[:4], "big"))
            )
        elif kind == b"AMBR":
            self.rate(None, int(fields[3]), int(fields[4]))
        elif kind == b"BEARER":
            self.ask(own, line % 2**23, int(fields[3]), (int(fields[4]), int(fields[5])))
        elif kind == b"DROP":
            bearer = own.active(int(fields[3]))
            self.event(bearer.life, "end")
            own.bearers = {index: other for index, other in own.bearers.items() if other is not bearer}

    def message(self, own: Slot, message: wire.Message, done: bool) -> None:
        """A command of the MME."""
        if message.type == wire.CREATE_BEARER_RESPONSE:
            self.answer(own, message, done)
        elif not done:
            return
        elif message.type == wire.CREATE_SESSION:
            ambr, context = wire.first(message.body, wire.AMBR), next(wire.contexts(message.body))
            self.rate(None, int.from_bytes(ambr[:4], "big"), int.from_bytes(ambr[4:8], "big"))
            self.attach(own, wire.ebi_of(context), wire.peer_of(context))
        elif message.type == wire.MODIFY_BEARER:
            first = {}
            for context in wire.contexts(message.body):
                first.setdefault(wire.ebi_of(context), wire.peer_of(context))
            for ebi, peer in first.items():
                bearer = own.active(ebi)
                if peer is not None and peer != bearer.peer:
                    bearer.peer = peer
                    self.event(bearer.life, "enodeb", peer)
        elif message.type == wire.RELEASE_BEARERS:
            for bearer in own.bearers.values():
                if bearer.ebi is not None and bearer.peer is not None:
                    bearer.peer = None
                    self.event(bearer.life, "idle")
        elif message.type == wire.DELETE_SESSION:
            self.leave(own)

    def event(self, life: int, event: str, peer: Peer | None = None) -> None:
        """A row of `bearer_event` at this command."""
        self.events.append((*self.place, life, self.number, event, *(peer or (None, None))))

    def rate(self, life: int | None, up: int, down: int) -> None:
        """A row of `rate` at this command."""
        if max(up, down) > MOST_RATE:
            raise ValueError("a rate above 2^40 - 1 kbps")
        self.rates.append((*self.place, life, up, down))

    def leave(self, own: Slot) -> None:
        """All bearers go; those that were only asked for have no life to tell of."""
        for bearer in own.bearers.values():
            if bearer.ebi is not None:
                self.event(bearer.life, "end")
        own.bearers = {}

    def attach(self, own: Slot, ebi: int, peer: Peer | None) -> None:
        """The slot begins anew, with its default bearer."""
        self.leave(own)
        own.bearers[0] = Bearer(own.lives, ebi, peer)
        self.event(own.lives, "begin", peer)
        own.lives += 1

    def ask(self, own: Slot, sequence: int, qci: int, rates: tuple[int, int]) -> None:
        """One more bearer, asked at the least free index."""
        index = next((free for free in range(11) if free not in own.bearers), None)
        if index is None or 0 not in own.bearers:
            raise Misfit("the subscriber has no session, or no index free")
        bearer = Bearer(own.lives, None, None)
        bearer.sequence = sequence
        bearer.rates = rates if qci in GUARANTEED else None
        own.bearers[index] = bearer
        own.lives += 1

    def answer(self, own: Slot, message: wire.Message, done: bool) -> None:
        """The asked bearer of least index becomes active, or goes."""
        index = own.asked(message.sequence)
        if index is None:
            if done:
                raise Misfit("no bearer is asked under its number")
            return
        if not done:
            del own.bearers[index]
            return
        bearer, context = own.bearers[index], next(wire.contexts(message.body))
        bearer.ebi, bearer.peer = wire.ebi_of(context), wire.peer_of(context)
        self.event(bearer.life, "begin", bearer.peer)
        if bearer.rates:
            self.rate(bearer.life, *bearer.rates)
