"""The workers of a real cluster, by its scheduler's address, with TLS; and what is known of a machine."""
import asyncio
import concurrent.futures
import contextlib
import os
import queue
import time
from typing import Any, Coroutine, Iterator, NamedTuple

from . import fleet_task
from .faults import Fault, READ_FAULT, USAGE

PART_OF_MEMORY = 0.8
LOOKED = 2.0  # seconds between two questions which workers there are
TURN = 0.5  # seconds to wait for what comes back
NOT_BEGUN: dict = {}  # what came of a trace whose worker died before it began
LOST = "the scheduler is lost; the same command goes on from here"
# what comes then, or where a time is over
GONE = (asyncio.CancelledError, concurrent.futures.CancelledError, OSError)


class Host(NamedTuple):
    """A machine of the cluster: how many traces side by side, and octets of memory for them."""

    threads: int
    memory: int


@contextlib.contextmanager
def remote(scheduler: str, tls: str, patience: int, memory: int | None) -> Iterator["Cluster"]:
    """The cluster of a scheduler, by certificates of a folder: ca.pem, cert.pem and key.pem."""
    if not scheduler.startswith("tls://"):
        raise Fault(
            USAGE,
            f"--scheduler {scheduler}: its address begins with tls://, as without TLS whoever connects runs code",
        )
    files = [os.path.join(tls, name) for name in ("ca.pem", "cert.pem", "key.pem")]
    for path in files:
        if not os.access(path, os.R_OK):
            raise Fault(READ_FAULT, f"{path}: no certificate that can be read")
    import cloudpickle
    import dask
    from distributed import Client, Security

    cloudpickle.register_pickle_by_value(fleet_task)  # an uploaded file would be lost where a worker begins anew
    dask.config.set({"distributed.comm.timeouts.connect": "15s", "distributed.comm.require-encryption": True})
    security = Security(
        tls_ca_file=files[0], tls_client_cert=files[1], tls_client_key=files[2], require_encryption=True
    )
    try:
        client = Client(scheduler, security=security, name="fleet", set_as_default=False, timeout=20)
    except (OSError, ValueError) as why:
        raise Fault(READ_FAULT, f"{scheduler}: {str(why).splitlines()[0]}") from None
    try:
        yield Cluster(client, patience, memory)
    finally:
        if client.status == "running":
            client.close(timeout=5)


class Cluster:
    """Which machines have workers, and which worker has which trace. Nothing waits for a worker: a result is fetched
    beside what else is done, as it stays at its worker until then."""

    def __init__(self, client, patience: int, memory: int | None):
        self.client, self.patience, self.given = client, patience, memory
        self.asked = 0.0
        self.memory: dict[str, int] = {}
        self.at: dict[str, tuple[int, str]] = {}  # of each worker how many traces side by side, and its machine
        self.futures: dict[str, tuple[Any, str]] = {}
        self.done: queue.Queue = queue.Queue()

    @property
    def workers(self) -> int:
        """How many there are."""
        return len(self.at)

    def start(self, work: Coroutine) -> concurrent.futures.Future:
        """Begins something in the client's own thread."""
        return asyncio.run_coroutine_threadsafe(work, self.client.loop.asyncio_loop)

    def hosts(self) -> dict[str, Host]:
        """The machines by their name; asked from time to time, as it costs a turn to the scheduler."""
        if self.client.status != "running":
            raise Fault(READ_FAULT, LOST)
        if time.monotonic() - self.asked > LOOKED:
            self.asked = time.monotonic()
            try:
                told = self.start(self.client.scheduler.identity()).result(self.patience)["workers"]
            except GONE:
                raise Fault(READ_FAULT, LOST) from None
            self.at = {address: (worker["nthreads"], worker["host"]) for address, worker in told.items()}
        found: dict[str, Host] = {}
        for address, (threads, host) in self.at.items():
            before = found[host].threads if host in found else 0
            found[host] = Host(before + threads, self.memory_of(host, address))
        return found

    def memory_of(self, host: str, worker: str) -> int:
        """Octets that programs may take on a machine, asked until one of its workers has told."""
        if self.given:
            return self.given
        if host not in self.memory and worker not in self.futures:
            self.submit_to(worker, worker, fleet_task.free_memory)
        return self.memory.get(host, 0)

    def submit(self, key: str, words: dict, host: str) -> None:
        """Gives a trace to the worker of a machine that has most threads free, so that none waits behind another."""
        free = {address: threads for address, (threads, at) in self.at.items() if at == host}
        for mine, (_, address) in self.futures.items():
            if address in free and mine != address:
                free[address] -= 1
        self.submit_to(key, max(free, key=lambda address: free[address]), fleet_task.run_trace, words)

    def submit_to(self, key: str, worker: str, task, *words) -> None:
        """Gives a task to a worker."""
        future = self.client.submit(task, *words, pure=False, key=f"{key} {time.monotonic_ns()}", workers=[worker])
        self.futures[key] = (future, worker)
        fetched = self.start(self.client.gather(future, asynchronous=True))
        fetched.add_done_callback(lambda done: self.done.put((key, future, done)))

    def back(self) -> list[tuple[str, dict | None]]:
        """What came of traces until now; none where the worker died, as dask tells of what has begun."""
        found: list[tuple[str, dict | None]] = []
        came = []
        with contextlib.suppress(queue.Empty):
            came.append(self.done.get(timeout=TURN))
            while True:
                came.append(self.done.get_nowait())
        for key, future, done in came:
            if self.futures.get(key, (None, ""))[0] is future:
                worker = self.futures.pop(key)[1]
                if key == worker:
                    self.keep_memory(worker, done)
                else:
                    found.append((key, self.told(done)))
        for key, (_, worker) in list(self.futures.items()):
            if worker not in self.at:
                self.drop(key)
                if key != worker:
                    found.append((key, NOT_BEGUN))
        return found

    def keep_memory(self, worker: str, done: concurrent.futures.Future) -> None:
        """What a worker told of its machine."""
        if worker in self.at and not done.cancelled() and not done.exception():
            self.memory[self.at[worker][1]] = int(done.result() * PART_OF_MEMORY)

    @staticmethod
    def told(done: concurrent.futures.Future) -> dict | None:
        """What a task gave."""
        from distributed.scheduler import KilledWorker

        try:
            return done.result()
        except KilledWorker:
            return None
        except GONE:
            raise Fault(READ_FAULT, LOST) from None
        except Exception as why:  # whatever a worker's Python makes of the task
            said = f"{type(why).__name__}: {why}"[: fleet_task.SAID]
            return {"rows": [fleet_task.row("run", "fault", said)], "lines": 0, "host": "-", "again": ""}

    def drop(self, key: str) -> None:
        """Gives a trace up."""
        future, _ = self.futures.pop(key)
        self.start(self.client.cancel([future], asynchronous=True))
