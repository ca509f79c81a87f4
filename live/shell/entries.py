"""From entries of the report to what is sent: by the fields of the entry, and by where its line came from
(docs/FORMATS.md, The report). Nothing is decided here."""
import collections
from binascii import unhexlify
from typing import Any, Callable

from shell.edges import S11_PORT, S1U_PORT
from shell.faults import AnswerFault
from shell.lines import OPERATOR, S11, S1U, SGI, Batch, FromMme, FromOperator

Sending = tuple[bytes, bytes, Any]  # the kind of an edge, octets, and an address there

NOTED_REPLIES = (b"echo", b"unknown", b"pool", b"nocontext", b"missing", b"incorrect")


class Answers:
    """The lines that were given and have no entry yet, and the MME of each subscriber."""

    def __init__(self, next_line: int, mmes: dict[bytes, tuple[str, int]]) -> None:
        self.next_line = next_line
        self.mmes = mmes
        self.awaited: collections.deque[Any] = collections.deque()
        self.answered: list[Batch] = []
        self.homeless = 0  # messages to an MME that isn't known
        self.watch: Callable[[list[bytes], bytes, Any], None] | None = None

    def expect(self, sources: list[Any]) -> None:
        """Lines were given to the core, which have these sources."""
        self.awaited.extend(sources)

    def take(self, text: bytes) -> list[Sending]:
        """What is to be sent by these whole entries, in their order."""
        sendings: list[Sending] = []
        for entry in text.split(b"\n")[:-1]:
            fields = entry.split(b" ")
            try:
                source = self.source_of(fields)
                self.sending_of(fields, source, sendings)
            except (IndexError, ValueError, TypeError, AttributeError) as fault:
                raise AnswerFault(f"the core says what is no entry: {entry[:80].decode(errors='replace')}") from fault
            if type(source) is FromOperator:
                sendings.append((OPERATOR, entry, source.address))
            if self.watch:
                self.watch(fields, entry, source)
        return sendings

    def source_of(self, fields: list[bytes]) -> Any:
        """Where the line of an entry came from; None for entries that answer no line."""
        if fields[0] not in (b"P", b"C", b"N", b"F"):
            return None
        if int(fields[1]) != self.next_line:
            raise AnswerFault(
                f"the core says nothing of line {self.next_line}: its next entry is of line {int(fields[1])}"
            )
        if not self.awaited:
            raise AnswerFault(f"the core answers line {self.next_line}, which it wasn't given")
        self.next_line += 1
        return self.awaited.popleft()

    def sending_of(self, fields: list[bytes], source: Any, sendings: list[Sending]) -> None:
        """What one entry has sent."""
        kind = fields[0]
        if kind == b"P":
            verdict = fields[5]
            if verdict == b"up":
                sendings.append((SGI, unhexlify(fields[7]), None))
            elif verdict == b"down":
                sendings.append((S1U, unhexlify(fields[8]), (fields[7].decode(), S1U_PORT)))
            elif verdict == b"held" and fields[7] != b"-":
                self.initial(fields[2], fields[7], sendings)
        elif kind == b"H":
            if fields[4] == b"down":
                sendings.append((S1U, unhexlify(fields[7]), (fields[6].decode(), S1U_PORT)))
        elif kind == b"M":
            sendings.append((S1U, unhexlify(fields[5]), (fields[4].decode(), S1U_PORT)))
        elif kind == b"C":
            if type(source) is FromMme:
                # a reply goes where its request came from (TS 29.274, 4.2.1)
                self.mmes[fields[2]] = source.address
                if fields[5] != b"-":
                    sendings.append((S11, unhexlify(fields[5]), source.address))
            elif fields[5] != b"-":
                self.initial(fields[2], fields[5], sendings)
        elif kind == b"N":
            if type(source) is Batch:
                self.answered.append(source)
            elif len(fields) > 4 and fields[3] in NOTED_REPLIES and fields[-1] != b"-":
                self.noted(fields, source, sendings)
        elif kind not in (b"R", b"O"):
            raise ValueError

    def initial(self, slot: bytes, message: bytes, sendings: list[Sending]) -> None:
        """A message that no request asked for goes to port 2123 of the subscriber's MME (TS 29.274, 4.2.1)."""
        if slot in self.mmes:
            sendings.append((S11, unhexlify(message), (self.mmes[slot][0], S11_PORT)))
        else:
            self.homeless += 1

    def noted(self, fields: list[bytes], source: Any, sendings: list[Sending]) -> None:
        """An answer to one who has no session: it goes where the line came from, an Error Indication to the port of
        GTP-U (TS 29.281, 4.4.2)."""
        octets = unhexlify(fields[-1])
        if source is None:
            self.homeless += 1  # its line came to a shell that was killed
        elif fields[2] == b"s11":
            sendings.append((S11, octets, source.address))
        elif fields[3] == b"unknown":
            sendings.append((S1U, octets, (source[0], S1U_PORT)))
        else:
            sendings.append((S1U, octets, source))
