"""The loop: all that was ready becomes a batch, which is recorded and given to the core; entries are recorded and acted
on. No more than a few batches stand unanswered, so a slow core leaves packets in the kernel's queues, which drop."""
import collections
import contextlib
import select
import signal
import socket
import time
from typing import Any, Iterator

from shell.audit import Audit
from shell.core import Core
from shell.edges import Edge
from shell.entries import Answers, Sending
from shell.faults import AnswerFault, CoreFault
from shell.instructions import Judge
from shell.lines import OPERATOR, Batch, Clock
from shell.record import Record
from shell.tally import Tally

IN_FLIGHT = 3  # batches: one is gathered and one acted on while the core has one
TURN = 32  # packets of an edge before the next one's turn
PATIENCE = 10.0  # seconds that the core may take for a batch


class Times:
    """How long packets stayed in the shell and in the core."""

    def __init__(self) -> None:
        self.packets = self.batches = self.shell = self.core = 0

    def add(self, batch: Batch, done: int) -> None:
        count = len(batch.lines) - 1
        self.packets += count
        self.batches += 1
        self.shell += count * (batch.given - batch.begun + done - batch.answered)
        self.core += count * (batch.answered - batch.given)

    def told(self) -> dict[str, float]:
        """Microseconds, as a mean over packets."""
        count = max(1, self.packets)
        return {
            "lines": self.packets,
            "batches": self.batches,
            "shell": self.shell / count / 1000,
            "core": self.core / count / 1000,
        }


class Gateway:
    """A gateway that works."""

    core: Core

    def __init__(
        self,
        edges: dict[bytes, Edge],
        answers: Answers,
        clock: Clock,
        judge: Judge,
        record: Record | None,
        tally: Tally | None,
    ) -> None:
        self.edges, self.answers, self.clock, self.judge, self.record = edges, answers, clock, judge, record
        self.tally = tally
        self.audit: Audit | None = None
        self.guard = tally.lock if tally else contextlib.nullcontext()
        self.times = Times()
        self.line_count = 0
        self.unanswered: collections.deque[Batch] = collections.deque()
        self.carried: collections.deque[tuple[bytes, bytes, Any]] = collections.deque()  # for the next batch
        self.stopping = False
        self.woken, self.wakes = socket.socketpair()
        for end in (self.woken, self.wakes):
            end.setblocking(False)
        signal.set_wakeup_fd(self.wakes.fileno(), warn_on_full_buffer=False)
        for number in (signal.SIGTERM, signal.SIGINT):
            signal.signal(number, self.stop)

    def start(self, core: Core, state: bytes) -> None:
        """Takes a core, and gives it a saved state first."""
        self.core = core
        self.line_count = self.answers.next_line - 1
        if state:
            core.give(state)

    def stop(self, *_: Any) -> None:
        self.stopping = True

    def run(self) -> None:
        """Works until it is asked to stop; then all that was given is answered, and the counters are recorded."""
        second = time.monotonic() + 1
        while not self.stopping:
            self.turn(max(0.0, second - time.monotonic()))
            if time.monotonic() >= second:
                second = max(second, time.monotonic() - 1) + 1
                if self.tally:
                    self.tally.tick()
        while self.unanswered or self.core.unwritten:
            self.turn(1.0)
        self.finish()

    def turn(self, patience: float) -> None:
        """Does what can be done now, or waits for it."""
        full = [edge for edge in self.edges.values() if edge.waiting]
        is_open = not self.stopping and not full and not self.core.unwritten and len(self.unanswered) < IN_FLIGHT
        reads = [self.woken, self.core.out, *(self.edges.values() if is_open else ())]
        writes = [*full, *([self.core.into] if self.core.unwritten else ())]
        ready, writable, _ = select.select(reads, writes, [], 0 if is_open and self.carried else patience)
        if self.woken in ready:
            self.woken.recv(512)
        if self.core.out in ready:
            self.act(self.core.read())
        for edge in full:
            edge.send_waiting()
        if self.core.into in writable:
            self.give(b"")
        if is_open:
            self.gather([edge for edge in self.edges.values() if edge in ready])
        if self.core.ended:
            raise CoreFault(f"the core ended with {len(self.answers.awaited)} lines unanswered: {self.core.end()}")
        if self.unanswered and time.monotonic_ns() - self.unanswered[0].begun > PATIENCE * 1e9:
            raise AnswerFault(f"the core says nothing of line {self.answers.next_line} for {PATIENCE:.0f} seconds")

    def gather(self, ready: list[Edge]) -> None:
        """Makes a batch of what is there, and gives it to the core."""
        if not ready and not self.carried:
            return
        batch = Batch(self.clock.moment())
        while self.carried and batch.add(*self.carried[0]):
            self.carried.popleft()
        if not self.carried:
            self.drain(ready, batch)
        if batch.lines:
            self.give_batch(batch)

    def drain(self, ready: list[Edge], batch: Batch) -> None:
        """Reads edges in turns, until none has a packet or one doesn't fit."""
        while ready:
            for edge in list(ready):
                for _ in range(TURN):
                    got = edge.receive()
                    if got is None:
                        ready.remove(edge)
                        break
                    if edge.kind == OPERATOR:
                        self.carried.extend(self.instructions(edge, *got))
                        return
                    if not batch.add(edge.kind, *got):
                        self.carried.append((edge.kind, *got))
                        return

    def instructions(self, edge: Edge, octets: bytes, asker: Any) -> Iterator[tuple[bytes, bytes, Any]]:
        """The instructions of a datagram; what is none is refused."""
        for text in octets.removesuffix(b"\n").split(b"\n"):
            why = self.judge.fault_of(text)
            if why:
                edge.send(b"refused " + why.encode(), asker)
            else:
                yield OPERATOR, text, asker

    def give_batch(self, batch: Batch) -> None:
        """Records a batch, then gives it to the core."""
        text = batch.close()
        if self.record:
            self.record.lines(text, self.line_count + 1, batch.sources)
        self.line_count += len(batch.lines)
        self.answers.expect(batch.sources)
        self.unanswered.append(batch)
        self.give(text)

    def give(self, text: bytes) -> None:
        """Gives octets to the core, or what waits there."""
        if text:
            self.core.give(text)
        else:
            self.core.write()
        if not self.core.unwritten:
            now = time.monotonic_ns()
            for batch in self.unanswered:
                batch.given = batch.given or now

    def act(self, text: bytes) -> None:
        """Records whole entries, then sends what they say."""
        if not text:
            return
        came = time.monotonic_ns()
        if self.record:
            self.record.entries(text)
        with self.guard:
            sendings = self.answers.take(text)
        self.send(sendings)
        done = time.monotonic_ns()
        for batch in self.answers.answered:
            batch.answered = came
            self.times.add(batch, done)
            self.unanswered.popleft()
        self.answers.answered.clear()

    def send(self, sendings: list[Sending]) -> None:
        for kind, octets, address in sendings:
            if kind in self.edges:
                self.edges[kind].send(octets, address)

    def finish(self) -> None:
        """Has the core end, and records what it says then."""
        self.core.close()
        while not self.core.ended:
            ready, _, _ = select.select([self.core.out], [], [], PATIENCE)
            if not ready:
                break
            self.act(self.core.read())
        if self.core.wait(PATIENCE) != 0:
            raise CoreFault(f"the core was told to end: {self.core.end()}")
        if self.record:
            self.record.stop()
        until = time.monotonic() + 1
        while any(edge.waiting for edge in self.edges.values()) and time.monotonic() < until:
            select.select([], [edge for edge in self.edges.values() if edge.waiting], [], 0.1)
            for edge in self.edges.values():
                edge.send_waiting()

    def verdict(self) -> int:
        """The status of the audit beside the core at the record's end, 0 without one; asked to stop again, it isn't
        waited for."""
        self.stopping = False
        return self.audit.finish(lambda: self.stopping) if self.audit else 0

    def close(self) -> None:
        """Leaves no process behind."""
        if hasattr(self, "core"):
            self.core.kill()
        if self.audit:
            self.audit.close()
        if self.record:
            self.record.close()

    def state(self, chosen: int | None, asked: str) -> dict[str, Any]:
        """What the page shows."""
        edges = {
            edge.kind.decode(): {
                **edge.counts,
                "waiting now": len(edge.waiting),
                "dropped by the kernel": edge.lost_by_kernel(),
            }
            for edge in self.edges.values()
        }
        return {
            **self.tally.snapshot(chosen, asked),
            "edges": edges,
            "times": self.times.told(),
            "lines": self.line_count,
            "unanswered": len(self.answers.awaited),
            "homeless": self.answers.homeless,
            "audit": self.audit and self.audit.told(),
        }
