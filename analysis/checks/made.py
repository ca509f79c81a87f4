"""Tables of a made trace against the sums of `make --summary`, which pepc reckons by itself."""
import csv
import sqlite3

from .harness import Check, is_missing, made, pepc

WORDS = ["--seed", "7", "--subs", "100", "--lines", "20000"]
TABLES = {"N": "note", "C": "command", "P": "packet", "F": "refused", "R": "record", "O": "open_counter"}


def run(check: Check) -> None:
    wanted = dict(word.split("=") for word in pepc(["make", *WORDS, "--summary"]).decode().split())
    pair = made(check.room, "made", pepc(["make", *WORDS]))
    out, sheets = check.room / "made.sqlite", check.room / "sheets"
    check.command(
        "tables of a made trace", ["tables", pair.trace, pair.report, out, "--csv", sheets, "--audit", "yes"], 0, ""
    )
    base = sqlite3.connect(out)
    found = {"lines": base.execute("SELECT lines FROM run").fetchone()[0]}
    found |= {kind: base.execute(f"SELECT count(*) FROM {table}").fetchone()[0] for kind, table in TABLES.items()}
    for way in ("up", "down"):
        found[way] = base.execute("SELECT sum(octets) FROM packet WHERE verdict = ?", (way,)).fetchone()[0]
        check.same(
            f"made trace: charged {way}",
            base.execute(f"SELECT sum({way}) FROM charged").fetchone()[0],
            int(wanted[way]),
        )
    check.same(
        "made trace: counts of the tables and of `make --summary`",
        {kind: str(count) for kind, count in found.items()},
        wanted,
    )
    check.same(
        "made trace: the row of the run",
        base.execute(
            "SELECT trace, report, trace_octets, report_octets, " "unanswered_from, audit FROM run"
        ).fetchone(),
        ("made.trace", "made.report", pair.trace.stat().st_size, pair.report.stat().st_size, None, "yes"),
    )
    for (table,) in base.execute(
        "SELECT name FROM sqlite_master WHERE type = 'table' AND name NOT LIKE 'sqlite%'"
    ).fetchall():
        rows = base.execute(f"SELECT * FROM {table}")
        wanted_rows = [[column[0] for column in rows.description]] + [
            ["" if value is None else value.hex() if isinstance(value, bytes) else str(value) for value in row]
            for row in rows
        ]
        with open(sheets / f"{table}.csv", newline="") as sheet:
            check.same(f"made trace: sheet {table}", list(csv.reader(sheet)) == wanted_rows, True)
    if not is_missing("pandas"):
        import pandas

        charges = pandas.read_sql("SELECT * FROM record JOIN subscriber USING (slot)", sqlite3.connect(out))
        check.same("made trace: records that pandas reads", len(charges), found["R"])
    base.execute(
        "UPDATE packet SET octets = octets + 1 WHERE rowid = (SELECT max(line) FROM packet WHERE verdict = 'up')"
    )
    check.same(
        "made trace: one octet more is unequal",
        [row[2:] for row in base.execute("SELECT * FROM unequal")],
        [(-1, 0, 0, 0)],
    )
    base.close()
