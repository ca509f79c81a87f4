"""From packets to lines of a trace: the one home of what the core is given (docs/FORMATS.md, The trace)."""
import time
from binascii import hexlify
from typing import Any, NamedTuple

S11, S1U, SGI, OPERATOR = b"S11", b"S1U", b"SGI", b"OPERATOR"  # the kinds of edges

MOST_OCTETS = 65_536
MOST_LINES = 256


class FromMme(NamedTuple):
    """Where the message of an `S11` line came from."""

    address: tuple[str, int]
    octets: bytes


class FromOperator(NamedTuple):
    """Who gave an instruction: an address of a local socket, or None for a file."""

    address: Any
    text: bytes


class Clock:
    """Microseconds since the start, behind those of a record that is gone on with; they never fall."""

    def __init__(self, last: int) -> None:
        self.last = last
        self.start = time.monotonic_ns() - last * 1000

    def moment(self) -> int:
        self.last = max(self.last, (time.monotonic_ns() - self.start) // 1000)
        return self.last


class Batch:
    """Lines of one moment, that are answered as one epoch."""

    def __init__(self, moment: int) -> None:
        self.moment = moment
        self.begun = time.monotonic_ns()
        self.given = self.answered = 0
        self.heads = {kind: b"%d %s " % (moment, kind) for kind in (S11, S1U, SGI)}
        self.lines: list[bytes] = []
        self.sources: list[Any] = []  # of each line, for its answer
        self.octets = 0

    def add(self, kind: bytes, octets: bytes, source: Any) -> bool:
        """Adds what came from an edge of this kind; False where it doesn't fit any more."""
        if kind == OPERATOR:
            line = b"%d %s\n" % (self.moment, octets)
            source = FromOperator(source, octets)
        else:
            line = self.heads[kind] + hexlify(octets) + b"\n"
            if kind == S11:
                source = FromMme(source, octets)
        if self.lines and (self.octets + len(line) > MOST_OCTETS or len(self.lines) == MOST_LINES):
            return False
        self.octets += len(line)
        self.lines.append(line)
        self.sources.append(source)
        return True

    def close(self) -> bytes:
        """The lines, and the FENCE that has them answered; its source is the batch itself."""
        self.lines.append(b"%d FENCE\n" % self.moment)
        self.sources.append(self)
        return b"".join(self.lines)
