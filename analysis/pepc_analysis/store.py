"""The SQLite file of the tables: made under another name, checked, and renamed at the end."""
import csv
import os
import sqlite3
from typing import Iterator

from . import schema
from .faults import BAD_REPORT, Fault, WRITE_FAULT, remove

INSERTIONS = {table.name: schema.insertion_of(table) for table in schema.TABLES}


def write_fault(why: OSError | sqlite3.Error, path: str) -> Fault:
    """The fault of a file that can't be written."""
    return Fault(WRITE_FAULT, f"{path}: {getattr(why, 'strerror', None) or why}")


class Store:
    """The tables while they are made."""

    def __init__(self, path: str, report_name: str):
        self.path, self.report_name = path, report_name
        self.new = f"{path}.{os.getpid()}.new"
        self.base: sqlite3.Connection | None = None

    def begin(self) -> None:
        """Makes the file, with its tables."""
        self.base = self.guarded(lambda: sqlite3.connect(self.new, isolation_level=None))
        self.run(
            "PRAGMA page_size = 8192",
            "PRAGMA journal_mode = OFF",
            "PRAGMA synchronous = OFF",
            "PRAGMA locking_mode = EXCLUSIVE",
            "PRAGMA cache_size = -32768",
        )
        self.run(*map(schema.statement_of, schema.TABLES), "BEGIN")

    def guarded(self, act):
        """Does a thing to the database; what fails is a fault of writing."""
        try:
            return act()
        except (OSError, sqlite3.Error) as why:
            raise write_fault(why, self.path) from None

    def run(self, *statements: str) -> None:
        """Runs statements."""
        for statement in statements:
            self.guarded(lambda: self.base.execute(statement))

    def take(self, rows: dict[str, list[tuple]]) -> None:
        """Puts the rows that wait into their tables."""
        for table, waiting in rows.items():
            if waiting:
                self.guarded(lambda: self.base.executemany(INSERTIONS[table], waiting))
                waiting.clear()

    def end(self, run: tuple) -> None:
        """The row of the run, then indexes and views."""
        self.take({"run": [run]})
        self.run("COMMIT")
        for index in schema.INDEXES:
            try:
                self.base.execute(index)
            except sqlite3.IntegrityError:
                raise Fault(BAD_REPORT, self.twice(index)) from None
            except sqlite3.Error as why:
                raise write_fault(why, self.path) from None
        self.run(
            *(f"CREATE VIEW {name} AS {text}" for name, (_, text) in schema.VIEWS.items()),
            "PRAGMA analysis_limit = 1000",
            "ANALYZE",
        )

    def twice(self, index: str) -> str:
        """The line of the report whose key an earlier one has."""
        table, columns = index.split(" ON ")[1].rstrip(")").split(" (")
        line, *key = self.base.execute(
            f"SELECT max(entry), {columns} FROM {table} GROUP BY {columns} HAVING count(*) > 1 " "ORDER BY 1 LIMIT 1"
        ).fetchone()
        told = ", ".join(f"{name} {value}" for name, value in zip(columns.split(", "), key))
        return f"{self.report_name} line {line}: a second {table.replace('_', ' ')} of {told}"

    def wrongs(self) -> Iterator[str]:
        """What isn't as it must be: charges that aren't what was forwarded, and lives that don't fit them."""
        for slot, life, *sums in self.guarded(lambda: self.base.execute("SELECT * FROM unequal LIMIT 1").fetchall()):
            told = "up {:+}, down {:+}, packets up {:+}, down {:+}".format(*sums)
            yield f"slot {slot} life {life}: charged less forwarded is {told}"
        for slot, life, why in self.guarded(lambda: self.base.execute("SELECT * FROM unmatched LIMIT 1").fetchall()):
            yield f"slot {slot} life {life}: {why}"

    def keep(self) -> None:
        """Closes the file and gives it its name."""
        self.guarded(self.base.close)
        self.guarded(lambda: os.replace(self.new, self.path))

    def drop(self) -> None:
        """Leaves nothing under the other name."""
        if self.base:
            self.base.close()
        remove(self.new)


def write_sheets(base: sqlite3.Connection, folder: str) -> None:
    """Each table as FOLDER/TABLE.csv, octets in hexadecimal digits; all are written before the first is renamed."""
    made = []
    try:
        os.makedirs(folder, exist_ok=True)
        for table in schema.TABLES:
            path = f"{folder}/{table.name}.csv"
            made.append((f"{path}.{os.getpid()}.new", path))
            with open(made[-1][0], "w", newline="", encoding="ascii") as sheet:
                form = csv.writer(sheet)
                rows = base.execute(f"SELECT * FROM {table.name}")
                form.writerow(column[0] for column in rows.description)
                form.writerows([value.hex() if isinstance(value, bytes) else value for value in row] for row in rows)
        for new, path in made:
            os.replace(new, path)
    except OSError as why:
        raise write_fault(why, folder) from None
    finally:
        for new, _ in made:
            remove(new)
