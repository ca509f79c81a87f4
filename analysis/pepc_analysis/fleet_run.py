"""Hands traces out to workers, and keeps their rows as they come back."""
import os
import time
from typing import NamedTuple

from . import fleet_task
from .faults import Fault, READ_FAULT
from .fleet_cluster import Cluster, Host, NOT_BEGUN
from .fleet_pool import Pool
from .fleet_progress import Progress
from .fleet_rows import Job, Rows

ATTEMPTS = 3
SPARED = 30  # how often at most a trace isn't blamed for a worker that died before it began
MEGA = 1_000_000
PIECES = 500 * MEGA  # an epoch, two more that are read ahead, and all subscribers


class Plan(NamedTuple):
    """What is done with each trace."""

    out: str
    program: str
    along: str
    tables: str
    steps: list[str]
    setup: list[str]
    slices: str
    limit: int
    patience: int


class Out(NamedTuple):
    """A trace that was handed out."""

    job: Job
    host: str
    need: int
    attempts: int
    begun: float


def need_of(job: Job, steps: list[str], along: bool = False) -> int:
    """Octets of memory that the steps of a trace take at most, by the size of its files."""
    trace = job.octets or 0
    report = job.report_octets if job.report_octets is not None else trace * 11 // 10
    need = 32 * MEGA
    if "tables" in steps:
        need = 200 * MEGA if trace > 20 * MEGA else 80 * MEGA
    whole = 32 * MEGA + 2 * (trace + report)
    if "audit" in steps:
        need = max(need, min(whole, PIECES) if along else whole)
    if "balance" in steps:
        need = max(need, whole)
    return need


class Fleet:
    """The traces that wait, those that are out, and where."""

    def __init__(self, cluster: Pool | Cluster, rows: Rows, plan: Plan, jobs: list[Job], alone: int | None):
        self.cluster, self.rows, self.plan = cluster, rows, plan
        self.alone, self.seen = alone, time.monotonic()  # seconds without a worker at most, and when there was one
        self.waiting = sorted(jobs, key=lambda job: job.octets or 0, reverse=True)  # the longest first
        self.tries: dict[str, int] = {}
        self.spared: dict[str, int] = {}
        self.out: dict[str, Out] = {}
        self.progress = Progress(len(jobs), sum(job.octets or 0 for job in jobs))

    def place_of(self, need: int, hosts: dict[str, Host]) -> str | None:
        """The machine with most threads free among those with room: a trace that fits nowhere has one for itself."""
        best = None
        for name, host in hosts.items():
            mine = [out for out in self.out.values() if out.host == name]
            free = host.threads - len(mine)  # none waits at a worker, as one that dies would take it along
            fits = sum(out.need for out in mine) + need <= host.memory or not mine
            if free > 0 and fits and (best is None or free > best[0]):
                best = (free, name)
        return best and best[1]

    def along_of(self, job: Job, hosts: dict[str, Host]) -> bool:
        """Whether a trace is audited epoch by epoch, as it is larger than any machine."""
        most = max((host.memory for host in hosts.values()), default=0)  # 0: none has told yet
        return "audit" in self.plan.steps and 0 < most < need_of(job, ["audit"])

    def hand_out(self) -> None:
        """Gives out what fits; of those that wait the first that does."""
        hosts = self.cluster.hosts()
        placed = True
        while self.waiting and placed:
            placed = False
            for number, job in enumerate(self.waiting[:64]):
                along = self.along_of(job, hosts)
                need = need_of(job, self.plan.steps, along)
                host = self.place_of(need, hosts)
                if host is not None:
                    del self.waiting[number]
                    self.submit(job, host, need, along)
                    placed = True
                    break

    def submit(self, job: Job, host: str, need: int, along: bool) -> None:
        """Gives a trace to a machine."""
        name, plan = job.listed.name, self.plan
        self.tries[name] = self.tries.get(name, 0) + 1
        words = {
            "trace": job.listed.path,
            "report": job.listed.report,
            "expected": job.listed.expected,
            "out": os.path.join(plan.out, name),
            "program": plan.program,
            "along": plan.along if along else None,
            "tables": plan.tables,
            "steps": plan.steps,
            "setup": plan.setup,
            "slices": plan.slices,
            "limit": plan.limit,
            "patience": plan.patience,
        }
        self.out[name] = Out(job, host, need, self.tries[name], time.monotonic())
        self.cluster.submit(name, words, host)

    def recall(self) -> None:
        """Traces that take longer than their steps may are done again: what has them answers, and does nothing."""
        most = self.plan.limit * (len(self.plan.steps) + 1) + self.plan.patience
        for name, out in list(self.out.items()):
            if time.monotonic() - out.begun > most:
                self.cluster.drop(name)
                self.take(name, None)

    def take(self, name: str, told: dict | None) -> None:
        """What came of a trace that was handed out; none where its worker died."""
        out = self.out.pop(name)
        if told is NOT_BEGUN and self.spared.get(name, 0) < SPARED:
            self.spared[name] = self.spared.get(name, 0) + 1
            self.tries[name] -= 1
            self.waiting.insert(0, out.job)
            return
        again = told["again"] if told else "its worker died"
        if again and out.attempts < ATTEMPTS:
            self.waiting.insert(0, out.job)
            return
        if again:
            said = f"{again}, {out.attempts} times"
            told = {"rows": [fleet_task.row("run", "lost", said)], "lines": 0, "host": "-"}
        self.rows.keep(out.job, ",".join(self.plan.steps), told["rows"], told["lines"], out.attempts, told["host"])
        self.progress.count([row["status"] for row in told["rows"]], told["lines"], out.job.octets or 0)

    def look_for_workers(self) -> None:
        """Workers of this machine that don't begin are given up."""
        if self.cluster.workers:
            self.seen = time.monotonic()
        elif self.alone and time.monotonic() - self.seen > self.alone:
            raise Fault(READ_FAULT, f"no worker for {self.alone} s; the same command goes on from here")

    def run(self) -> None:
        """Hands all out, and takes all back."""
        while self.waiting or self.out:
            self.hand_out()
            for name, told in self.cluster.back():
                self.take(name, told)
            self.recall()
            self.look_for_workers()
            self.progress.tell(self.cluster.workers)
        self.progress.tell(self.cluster.workers, last=True)
