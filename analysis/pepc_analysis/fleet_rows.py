"""The rows of a fleet, in OUT/fleet.sqlite. The driver alone writes them, a trace at a time, so that a run that ends
anywhere leaves whole traces."""
import fcntl
import os
import pathlib
import sqlite3
import time
from typing import Iterable, NamedTuple

from .fleet_list import Listed
from .faults import Fault, USAGE, WRITE_FAULT, remove

VERSION = 1
AGAIN = ("lost", "fault")  # of these steps nothing is known: they are done again
TABLES = """
CREATE TABLE run (version INTEGER NOT NULL, program TEXT NOT NULL, path TEXT NOT NULL) STRICT;
CREATE TABLE trace (name TEXT PRIMARY KEY, path TEXT NOT NULL, report TEXT, expected TEXT NOT NULL, octets INTEGER,
  mark TEXT NOT NULL, steps TEXT NOT NULL, lines INTEGER NOT NULL, attempts INTEGER NOT NULL, host TEXT NOT NULL,
  ended INTEGER NOT NULL) STRICT;
CREATE TABLE step (name TEXT NOT NULL, step TEXT NOT NULL, status TEXT NOT NULL, said TEXT NOT NULL,
  seconds REAL NOT NULL, memory INTEGER NOT NULL, PRIMARY KEY (name, step)) STRICT, WITHOUT ROWID;
CREATE VIEW summary AS SELECT step, status, count(*) traces, round(sum(seconds), 1) seconds,
  max(memory) / 1000000 most_mb, min(said) example FROM step GROUP BY step, status ORDER BY step, status;
CREATE VIEW failed AS SELECT name FROM step GROUP BY name HAVING max(status <> '0' AND status NOT IN ('lost'));
"""


class Job(NamedTuple):
    """A trace that is to be done: its line of the list, its size, and what its files are known by."""

    listed: Listed
    octets: int | None
    report_octets: int | None
    mark: str


def look(path: str | None) -> os.stat_result | None:
    """What is known of a file, or none where it isn't there."""
    try:
        return os.stat(path) if path else None
    except OSError:
        return None


def job_of(listed: Listed) -> Job:
    """A line of the list, with what its files are."""
    trace, report = look(listed.path), look(listed.report)
    mark = " ".join(f"{found.st_size}:{found.st_mtime_ns}" if found else "none" for found in (trace, report))
    return Job(listed, trace.st_size if trace else None, report.st_size if report else None, mark)


class Rows:
    """The database, locked: one driver works in OUT."""

    def __init__(self, out: str, program: str, path: str):
        self.path = f"{out}/fleet.sqlite"
        try:
            os.makedirs(out, exist_ok=True)
            self.lock = os.open(f"{out}/fleet.lock", os.O_CREAT | os.O_RDWR | os.O_CLOEXEC, 0o644)
            fcntl.flock(self.lock, fcntl.LOCK_EX | fcntl.LOCK_NB)
        except BlockingIOError:
            raise Fault(USAGE, f"{out}: another fleet is at work there") from None
        except OSError as why:
            raise Fault(WRITE_FAULT, f"{out}: {why.strerror}") from None
        self.out = out
        self.sweep()
        try:
            self.base = sqlite3.connect(self.path)
            self.base.execute("PRAGMA journal_mode = WAL")
            self.base.execute("PRAGMA synchronous = NORMAL")
            if not self.base.execute("SELECT 1 FROM sqlite_master").fetchone():
                self.base.executescript(f"BEGIN; {TABLES} COMMIT;")
                with self.base:
                    self.base.execute("INSERT INTO run VALUES (?, ?, ?)", (VERSION, program, path))
            version, made_by = self.base.execute("SELECT version, program FROM run").fetchone()
        except (sqlite3.Error, TypeError) as why:
            raise Fault(WRITE_FAULT, f"{self.path}: {why}") from None
        if version != VERSION:
            raise Fault(
                USAGE, f"{self.path}: of version {version}, where this program has {VERSION}; give another OUT"
            )
        if made_by != program:
            raise Fault(
                USAGE,
                f"{self.path}: made by another program (SHA-256 {made_by[:16]}.., and {path} has "
                f"{program[:16]}..); give another OUT",
            )

    def sweep(self) -> None:
        """Files of programs that were killed go."""
        for left in pathlib.Path(self.out).rglob("*.new"):
            remove(str(left))

    def done(self, steps: str) -> set[tuple[str, str, str]]:
        """Name, expectation and mark of the traces whose rows stand, by these steps."""
        return set(
            self.base.execute(
                f"SELECT name, expected, mark FROM trace WHERE steps = ? AND NOT EXISTS (SELECT 1 FROM step WHERE "
                f"step.name = trace.name AND status IN {AGAIN})",
                (steps,),
            )
        )

    def keep(self, job: Job, steps: str, rows: Iterable[dict], lines: int, attempts: int, host: str) -> None:
        """The rows of a trace, in place of those from before."""
        listed = job.listed
        try:
            with self.base:
                self.base.execute("DELETE FROM step WHERE name = ?", (listed.name,))
                self.base.executemany(
                    "INSERT INTO step VALUES (?, :step, :status, :said, :seconds, :memory)".replace("?", ":name"),
                    [{**row, "name": listed.name} for row in rows],
                )
                self.base.execute(
                    "INSERT OR REPLACE INTO trace VALUES (?, ?, ?, ?, ?, ?, ?, ?, ?, ?, ?)",
                    (
                        listed.name,
                        listed.path,
                        listed.report,
                        listed.expected,
                        job.octets,
                        job.mark,
                        steps,
                        lines,
                        attempts,
                        host,
                        int(time.time()),
                    ),
                )
        except sqlite3.Error as why:
            raise Fault(WRITE_FAULT, f"{self.path}: {why}") from None

    def forget(self, names: set[str]) -> None:
        """Rows of traces that the list doesn't have any more go."""
        with self.base:
            for name in [row[0] for row in self.base.execute("SELECT name FROM trace")]:
                if name not in names:
                    self.base.execute("DELETE FROM step WHERE name = ?", (name,))
                    self.base.execute("DELETE FROM trace WHERE name = ?", (name,))

    def summary(self) -> list[tuple]:
        """How many traces each step and status has."""
        return self.base.execute("SELECT * FROM summary").fetchall()
