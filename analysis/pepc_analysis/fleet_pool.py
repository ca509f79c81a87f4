"""The workers of this machine: processes, each with a socket of its own to the driver. Nobody waits for a worker: one
that is silent for too long is killed with its programs, and another begins in its place."""
import json
import os
import pathlib
import selectors
import signal
import socket
import subprocess
import sys
import time

from . import fleet_task
from .fleet_cluster import Host, NOT_BEGUN, PART_OF_MEMORY
from .fleet_worker import BEGUN

TURN = 0.5  # seconds between two looks at silent workers
AGAIN = 1.0  # seconds until another begins, where one ended before its first word
PIECE = 1 << 18
START = (
    f"import sys; sys.path.insert(0, {str(pathlib.Path(__file__).resolve().parents[1])!r}); "
    "from pepc_analysis.fleet_worker import main; main()"
)


class Worker:
    """A process, and the trace that it has."""

    def __init__(self) -> None:
        self.socket, theirs = socket.socketpair()
        self.socket.setblocking(False)
        self.key: str | None = None
        self.there, self.begun, self.silent, self.said = False, False, 0.0, b""
        with theirs:
            try:
                # a process group, so that it is killed with its programs; pdeathsig: it dies with the driver
                self.process = subprocess.Popen(
                    ["setpriv", "--pdeathsig", "KILL", "--", sys.executable, "-B", "-c", START],
                    stdin=theirs,
                    stdout=theirs,
                    stderr=subprocess.DEVNULL,
                    process_group=0,
                )
            except BaseException:
                self.socket.close()
                raise

    def give(self, key: str, words: dict) -> bool:
        """Gives it a trace; a socket has room for one."""
        self.key, self.begun = key, False
        line = json.dumps(words, ensure_ascii=False).encode("utf-8", "surrogateescape") + b"\n"
        try:
            return self.socket.send(line) == len(line)
        except OSError:
            return False

    def read(self) -> list[dict]:
        """What came of its trace, if it said so; raises where it has ended or says what can't be."""
        octets = self.socket.recv(PIECE)
        if not octets:
            raise EOFError
        self.there, self.silent = True, 0.0
        *lines, self.said = (self.said + octets).split(b"\n")
        self.begun = self.begun or BEGUN in lines
        return [json.loads(line) for line in lines if line and line != BEGUN]

    def kill(self) -> None:
        """Ends it and its programs, wherever they are."""
        self.socket.close()
        try:
            os.killpg(self.process.pid, signal.SIGKILL)
        except OSError:
            pass


class Pool:
    """The workers of this machine."""

    def __init__(self, workers: int, patience: int, memory: int | None):
        self.wanted, self.patience = workers, patience
        self.host = socket.gethostname()
        self.memory = memory or int(fleet_task.free_memory() * PART_OF_MEMORY)
        self.selector = selectors.DefaultSelector()
        self.mine: list[Worker] = []
        self.killed: list[Worker] = []
        self.looked = self.next = time.monotonic()

    def __enter__(self) -> "Pool":
        return self

    def __exit__(self, *_) -> None:
        """Ends all workers, and waits for those that can end."""
        for worker in self.mine:
            worker.kill()
        end = time.monotonic() + 10
        for worker in self.mine + self.killed:
            try:
                worker.process.wait(max(end - time.monotonic(), 0))
            except subprocess.TimeoutExpired:
                pass
        self.selector.close()

    @property
    def workers(self) -> int:
        """How many have said something."""
        return sum(worker.there for worker in self.mine)

    def hosts(self) -> dict[str, Host]:
        """This machine; those that are missing begin."""
        try:
            while len(self.mine) < self.wanted and time.monotonic() >= self.next:
                worker = Worker()
                self.mine.append(worker)
                self.selector.register(worker.socket, selectors.EVENT_READ, worker)
        except OSError:  # no more processes now
            self.next = time.monotonic() + AGAIN
        return {self.host: Host(self.workers, self.memory)}

    def submit(self, key: str, words: dict, host: str) -> None:
        """Gives a trace to a worker that has none."""
        worker = next(worker for worker in self.mine if worker.there and worker.key is None)
        if not worker.give(key, words):
            worker.silent = float("inf")

    def back(self) -> list[tuple[str, dict | None]]:
        """What came of traces until now; none where the worker died."""
        found: list[tuple[str, dict | None]] = []
        for event, _ in self.selector.select(TURN):
            worker = event.data
            try:
                for told in worker.read():
                    if worker.key is None:
                        raise ValueError("an answer to nothing")
                    found.append((worker.key, told))
                    worker.key = None
            except (OSError, EOFError, ValueError):
                worker.silent = float("inf")
        # a turn counts for no more than it should take: what held the driver up held up its workers too, maybe
        now = time.monotonic()
        passed, self.looked = min(now - self.looked, 2 * TURN), now
        for worker in list(self.mine):
            worker.silent += passed
            if worker.silent > self.patience:
                if worker.key is not None:
                    found.append((worker.key, None if worker.begun else NOT_BEGUN))
                self.end(worker)
        self.killed = [worker for worker in self.killed if worker.process.poll() is None]
        return found

    def drop(self, key: str) -> None:
        """Ends the worker of a trace that takes too long."""
        for worker in list(self.mine):
            if worker.key == key:
                self.end(worker)

    def end(self, worker: Worker) -> None:
        """Ends a worker."""
        self.selector.unregister(worker.socket)
        self.mine.remove(worker)
        worker.kill()
        self.killed.append(worker)
        if not worker.there:
            self.next = time.monotonic() + AGAIN
