"""The charges of all traces of a fleet in one table, and one picture of the fleet."""
import os
import sqlite3

from . import sums
from .faults import BAD_REPORT, Fault, READ_FAULT, WRITE_FAULT, remove
from .schema import VERSION

MOST_TRACES = 20
TABLES = """
CREATE TABLE charge (name TEXT NOT NULL, slot INTEGER NOT NULL, imsi TEXT, life INTEGER NOT NULL, seq INTEGER NOT NULL,
  ebi INTEGER NOT NULL, qci INTEGER NOT NULL, up INTEGER NOT NULL, down INTEGER NOT NULL, pup INTEGER NOT NULL,
  pdown INTEGER NOT NULL, first INTEGER, last INTEGER, why TEXT, audit TEXT NOT NULL,
  PRIMARY KEY (name, slot, life, seq)) STRICT, WITHOUT ROWID;
CREATE TABLE outcome (name TEXT NOT NULL, outcome TEXT NOT NULL, packets INTEGER NOT NULL, octets INTEGER NOT NULL,
  PRIMARY KEY (name, outcome)) STRICT, WITHOUT ROWID;
CREATE TABLE step (name TEXT NOT NULL, step TEXT NOT NULL, status TEXT NOT NULL, PRIMARY KEY (name, step)) STRICT,
  WITHOUT ROWID;
"""
CHARGES = """
INSERT INTO charge SELECT ?, slot, imsi, life, seq, ebi, qci, up, down, pup, pdown, first, last, why, audit FROM
  (SELECT slot, life, seq, ebi, qci, up, down, pup, pdown, first, last, why FROM one.record UNION ALL
   SELECT slot, life, seq, ebi, qci, up, down, pup, pdown, NULL, NULL, NULL FROM one.open_counter)
  LEFT JOIN one.subscriber USING (slot), one.run
"""
OUTCOMES = """
INSERT INTO outcome SELECT ?, CASE WHEN verdict IN ('up', 'down') THEN 'forwarded' WHEN verdict IN ('spoof', 'nobearer')
  THEN 'spoof, nobearer' ELSE verdict END, count(*), sum(octets) FROM one.packet GROUP BY 2
"""
REFUSED = "INSERT INTO outcome SELECT ?, 'queue full', count(*), 0 FROM one.refused HAVING count(*) > 0"


def merge(out: str) -> tuple[int, int]:
    """Makes OUT/charges.sqlite of the tables of all traces; gives how many traces and rows it has."""
    rows = opened(f"{out}/fleet.sqlite")
    path = f"{out}/charges.sqlite"
    new = f"{path}.{os.getpid()}.new"
    try:
        base = sqlite3.connect(f"file:{new}", uri=True, isolation_level=None)
        base.execute("PRAGMA journal_mode = OFF")
        base.execute("PRAGMA synchronous = OFF")
        base.executescript(TABLES)
        base.executemany("INSERT INTO step VALUES (?, ?, ?)", rows.execute("SELECT name, step, status FROM step"))
        for (name,) in rows.execute(
            "SELECT name FROM step WHERE step = 'tables' AND status IN ('0', '9') ORDER BY name"
        ):
            add(base, name, f"{out}/{name}.sqlite")
        base.execute("CREATE INDEX charge_of_imsi ON charge (imsi)")
        counts = base.execute("SELECT count(DISTINCT name), count(*) FROM charge").fetchone()
        base.close()
        os.replace(new, path)
        return counts
    except (OSError, sqlite3.Error) as why:
        raise Fault(WRITE_FAULT, f"{path}: {getattr(why, 'strerror', None) or why}") from None
    finally:
        remove(new)


def opened(path: str) -> sqlite3.Connection:
    """The rows of a fleet, to read."""
    if not os.path.isfile(path):
        raise Fault(READ_FAULT, f"{path}: no such file")
    base = sqlite3.connect(path)
    try:
        base.execute("SELECT version FROM run").fetchone()
    except sqlite3.Error as why:
        raise Fault(READ_FAULT, f"{path}: no rows of a fleet: {why}") from None
    return base


def add(base: sqlite3.Connection, name: str, path: str) -> None:
    """One trace's charges; SQLite attaches ten files at most, so one at a time."""
    if not os.path.isfile(path):
        raise Fault(READ_FAULT, f"{path}: no such file")
    base.execute("ATTACH ? AS one", (path,))
    version = base.execute("SELECT schema FROM one.run").fetchone()[0]
    if version != VERSION:
        raise Fault(BAD_REPORT, f"{path}: tables of version {version}, where this program has {VERSION}")
    base.execute("BEGIN")
    for statement in (CHARGES, OUTCOMES, REFUSED):
        base.execute(statement, (name,))
    base.execute("COMMIT")
    base.execute("DETACH one")


def kind_of(step: str, status: str) -> str:
    """What came of a step, in words."""
    return {"0": "well", "9": "refuted (9)", "6": "bad line (6)", "12": "bad report (12)"}.get(
        status, status if not status.isdigit() else "other status"
    )


def picture(path: str):
    """One picture of the fleet: volume, refusals, and what came of the steps."""
    from matplotlib.figure import Figure
    from .pictures import COLOUR, ROW, finished, nothing, octet_unit, titled

    base = sqlite3.connect(path)
    figure = Figure(figsize=(10, 11))
    volume, refusals, steps = figure.subplots(3, 1, gridspec_kw={"height_ratios": [5, 5, 3]})
    charged = base.execute(
        "SELECT name, sum(up), sum(down) FROM charge GROUP BY name ORDER BY sum(up + down) DESC, name " "LIMIT ?",
        (MOST_TRACES,),
    ).fetchall()
    traces = base.execute("SELECT count(DISTINCT name) FROM step").fetchone()[0]
    word, unit = octet_unit(max((up + down for _, up, down in charged), default=0))
    for values, left, label, colour in (
        ([row[1] / unit for row in charged], None, "up", ROW[1]),
        ([row[2] / unit for row in charged], [row[1] / unit for row in charged], "down", ROW[0]),
    ):
        volume.barh(range(len(charged)), values, left=left, label=label, color=colour, height=0.75)
    rows_of(volume, [row[0] for row in charged])
    volume.set_xlabel(f"charged, {word}")
    titled(volume, f"Volume of the {len(charged)} greatest of {traces:,} traces", bool(charged))

    colours = {
        "held": COLOUR[sums.SENT],
        "idle": COLOUR[sums.IDLE],
        "policed": COLOUR[sums.POLICED],
        sums.REFUSED: COLOUR[sums.REFUSED],
        "queue full": "#AA3377",
    }
    found: dict[str, dict[str, float]] = {}
    for name, outcome, packets in base.execute("SELECT name, outcome, packets FROM outcome"):
        found.setdefault(name, {})[outcome] = packets
    share = {
        name: {what: 100 * packets / sum(counts.values()) for what, packets in counts.items() if what in colours}
        for name, counts in found.items()
    }
    shown = sorted((name for name in share if share[name]), key=lambda name: (-sum(share[name].values()), name))[
        :MOST_TRACES
    ]
    left = [0.0] * len(shown)
    for outcome, colour in colours.items():
        values = [share[name].get(outcome, 0) for name in shown]
        if any(values):
            refusals.barh(range(len(shown)), values, left=left, color=colour, height=0.75, label=outcome)
        left = [low + value for low, value in zip(left, values)]
    rows_of(refusals, shown)
    refusals.set_xlabel("of the trace's packets, %")
    titled(refusals, f"Packets that weren't forwarded at once, the {len(shown)} greatest shares", bool(shown))

    counts: dict[str, dict[str, int]] = {}
    for step, status, number in base.execute("SELECT step, status, count(*) FROM step GROUP BY 1, 2"):
        kinds = counts.setdefault(step, {})
        kinds[kind_of(step, status)] = kinds.get(kind_of(step, status), 0) + number
    order = [step for step in ("find", "run", "solo", "audit", "why", "balance", "tables") if step in counts]
    kinds = sorted({kind for of_step in counts.values() for kind in of_step}, key=lambda kind: (kind != "well", kind))
    left = [0] * len(order)
    for place, kind in enumerate(kinds):
        values = [counts[step].get(kind, 0) for step in order]
        colour = (
            ROW[0]
            if kind == "well"
            else COLOUR[sums.POLICED]
            if kind.startswith("refuted")
            else (["#E69F00", "#CC79A7", "#F0E442", "#009E73", "#999999", "#000000", "#7A3300"][(place - 1) % 7])
        )
        steps.barh(range(len(order)), values, left=left, color=colour, height=0.75, label=kind)
        left = [low + value for low, value in zip(left, values)]
    rows_of(steps, order)
    steps.set_xlabel("traces")
    titled(steps, "What came of the steps", bool(order))
    for axis, rows in ((volume, charged), (refusals, shown), (steps, order)):
        if not rows:
            nothing(axis)
    return finished(figure, f"Fleet of {traces:,} traces")


def rows_of(axis, names: list[str]) -> None:
    """Names of the rows of lying bars, from the top."""
    axis.set_yticks(range(len(names)), [name if len(name) <= 32 else ".." + name[-30:] for name in names], fontsize=8)
    axis.set_ylim(max(len(names), 1) - 0.4, -0.6)
    axis.grid(axis="y", visible=False)
