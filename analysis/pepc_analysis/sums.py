"""The sums that pictures show, made by SQLite, so that memory doesn't grow with the packets."""
import sqlite3
from typing import Iterator, NamedTuple

from .faults import BAD_REPORT, Fault, READ_FAULT
from .schema import VERSION

MOST_BARS = 200
STEPS = [10**exponent * digit for exponent in range(0, 16) for digit in (1, 2, 5)]
GBR = ", QCI 1 to 4"
FORWARDED, POLICED, IDLE, REFUSED = "forwarded", "policed", "idle", "spoof, nobearer"
SENT, LOST, WAITING = "held, then sent", "held, then lost", "held to the end"
OUTCOMES = [FORWARDED, FORWARDED + GBR, SENT, WAITING, IDLE, LOST, POLICED, POLICED + GBR, REFUSED]
WAYS = {"SGI": "down", "S1U": "up"}


class Bars(NamedTuple):
    """Bars of one width over the time that is shown, in microseconds."""

    low: int
    high: int
    step: int

    @property
    def starts(self) -> list[int]:
        """Where each bar begins."""
        return list(range(self.low // self.step * self.step, self.high + 1, self.step))

    @property
    def end(self) -> int:
        """Where the last bar ends."""
        return (self.high // self.step + 1) * self.step


def opened(path: str) -> sqlite3.Connection:
    """Tables of this version, to read."""
    try:
        base = sqlite3.connect(f"file:{path.replace('?', '%3f').replace('#', '%23')}?mode=ro", uri=True)
        version = base.execute("SELECT schema FROM run").fetchone()[0]
    except sqlite3.Error as why:
        raise Fault(READ_FAULT, f"{path}: no tables: {why}") from None
    if version != VERSION:
        raise Fault(BAD_REPORT, f"{path}: tables of version {version}, where this program has {VERSION}")
    base.execute("CREATE TEMP TABLE guaranteed (slot, life, PRIMARY KEY (slot, life)) WITHOUT ROWID")
    base.execute(
        "INSERT INTO guaranteed SELECT slot, life FROM record WHERE qci <= 4 UNION "
        "SELECT slot, life FROM open_counter WHERE qci <= 4"
    )
    return base


def bars_of(base: sqlite3.Connection, begin: float | None, end: float | None) -> Bars:
    """All moments of the trace, or those from one second to another, in at most 200 bars."""
    low, high = base.execute(
        "SELECT min(moment), max(moment) FROM (SELECT min(moment) moment FROM packet UNION ALL SELECT "
        "max(moment) FROM packet UNION ALL SELECT min(moment) FROM command UNION ALL "
        "SELECT max(moment) FROM command)"
    ).fetchone()
    low = (low or 0) if begin is None else int(begin * 1e6)
    high = max((high or 0) if end is None else int(end * 1e6), low + 1)
    return Bars(low, high, next(step for step in STEPS if (high // step) - (low // step) < MOST_BARS))


def outcomes(
    base: sqlite3.Connection, bars: Bars, slot: int | None = None
) -> dict[tuple[str, str], list[tuple[int, int]]]:
    """Octets and packets of each bar, by way and by what became of them, of all subscribers or of one."""
    found = {(way, outcome): [(0, 0)] * len(bars.starts) for way in WAYS.values() for outcome in OUTCOMES}
    first = bars.low // bars.step
    mine = "" if slot is None else f"slot = {slot} AND "
    rows = base.execute(
        f"""SELECT kind, CASE WHEN verdict IN ('up', 'down') THEN '{FORWARDED}' WHEN verdict IN ('spoof', 'nobearer')
              THEN '{REFUSED}' ELSE verdict END
              || iif(verdict IN ('up', 'down', 'policed') AND (slot, life) IN guaranteed, '{GBR}', '') outcome, moment / ? bar, sum(octets), count(*)
            FROM packet WHERE {mine} verdict <> 'held' AND moment BETWEEN ? AND ? GROUP BY 1, 2, 3
            UNION ALL
            SELECT kind, iif(fate = 'down', '{SENT}', iif(fate IS NULL, '{WAITING}', '{LOST}')), p.moment / ?,
              sum(p.octets), count(*)
            FROM packet p LEFT JOIN fate f ON f.slot = p.slot AND f.packet = p.number
            WHERE {mine.replace('slot', 'p.slot')} verdict = 'held' AND p.moment BETWEEN ? AND ? GROUP BY 1, 2, 3""",
        (bars.step, bars.low, bars.high) * 2,
    )
    for kind, outcome, bar, octets, packets in rows:
        found[WAYS[kind], outcome][bar - first] = (octets, packets)
    return found


class Charges(NamedTuple):
    """A subscriber's charged octets by QCI."""

    slot: int
    imsi: str
    up: dict[int, int]
    down: dict[int, int]


def greatest(base: sqlite3.Connection, most: int) -> tuple[list[Charges], int, int]:
    """The subscribers with the most charged octets; how many there are, and the octets of all."""
    all_charges = "(SELECT slot, qci, up, down FROM record UNION ALL SELECT slot, qci, up, down FROM open_counter)"
    count, octets = base.execute(
        f"SELECT count(DISTINCT slot), coalesce(sum(up + down), 0) FROM {all_charges}"
    ).fetchone()
    shown: dict[int, Charges] = {}
    for slot, imsi in base.execute(
        f"SELECT slot, coalesce(imsi, '?') FROM {all_charges} LEFT JOIN subscriber USING (slot) "
        "GROUP BY slot ORDER BY sum(up + down) DESC, slot LIMIT ?",
        (most,),
    ).fetchall():
        shown[slot] = Charges(slot, imsi, {}, {})
        for qci, up, down in base.execute(
            f"SELECT qci, sum(up), sum(down) FROM {all_charges} WHERE slot = ? GROUP BY qci", (slot,)
        ):
            shown[slot].up[qci], shown[slot].down[qci] = up, down
    return list(shown.values()), count, octets


def policed_shares(base: sqlite3.Connection, bars: Bars, most: int) -> list[tuple[int, str, int, int, int]]:
    """Slot, way, whether of QCI 1 to 4, and octets that were tried and policed, of those with most policed first."""
    return [
        (slot, WAYS[kind], gbr, tried, policed)
        for slot, kind, gbr, tried, policed in base.execute(
            "SELECT slot, kind, (slot, life) IN guaranteed gbr, sum(octets), "
            "sum(iif(verdict = 'policed', octets, 0)) policed "
            "FROM packet WHERE verdict IN ('up', 'down', 'policed') AND moment BETWEEN ? AND ? GROUP BY 1, 2, 3 "
            "ORDER BY policed DESC, 4 DESC, 1 LIMIT ?",
            (bars.low, bars.high, most),
        )
    ]


def waits(base: sqlite3.Connection, bars: Bars, most: int) -> tuple[int, list[tuple[int, int]]]:
    """How long held packets waited for their fate: a bar's width in microseconds, and number and height of bars."""
    joined = "FROM fate f JOIN packet p ON p.slot = f.slot AND p.number = f.packet WHERE p.moment BETWEEN ? AND ?"
    longest = base.execute(f"SELECT max(f.moment - p.moment) {joined}", (bars.low, bars.high)).fetchone()[0]
    if longest is None:
        return 1, []
    step = next(step for step in STEPS if longest // step < most)
    return (
        step,
        base.execute(
            f"SELECT (f.moment - p.moment) / ?, count(*) {joined} GROUP BY 1", (step, bars.low, bars.high)
        ).fetchall(),
    )


class Stretch(NamedTuple):
    """A time that a bearer had one eNodeB, or none, microseconds."""

    life: int
    begin: int
    end: int
    enodeb: str | None


def bearers(base: sqlite3.Connection, slot: int, bars: Bars) -> list[tuple[int, int, int]]:
    """Life, EBI and QCI of the bearers that were there in the time that is shown."""
    return base.execute(
        'SELECT life, ebi, qci FROM bearer WHERE slot = ? AND coalesce("end", ?) >= ? AND begin <= ? '
        "ORDER BY life LIMIT 24",
        (slot, bars.high, bars.low, bars.high),
    ).fetchall()


def stretches(base: sqlite3.Connection, slot: int, life: int, bars: Bars) -> Iterator[Stretch]:
    """The eNodeBs and idle times of a bearer."""
    events = base.execute(
        "SELECT moment, event, enodeb FROM bearer_event WHERE slot = ? AND life = ? ORDER BY line", (slot, life)
    ).fetchall()
    for (moment, event, enodeb), after in zip(events, [later[0] for later in events[1:]] + [bars.end]):
        begin, end = max(moment, bars.low), min(after, bars.end)
        if event != "end" and end > begin:
            yield Stretch(life, begin, end, enodeb)


def moves(base: sqlite3.Connection, slot: int, bars: Bars) -> list[int]:
    """The moments where the subscriber was moved to another slice."""
    return [
        row[0]
        for row in base.execute(
            "SELECT moment FROM note WHERE class = 'move' AND slot = ? AND moment BETWEEN ? " "AND ? ORDER BY line",
            (slot, bars.low, bars.high),
        )
    ]


def steps_of(rows: list[tuple[int, int]], bars: Bars) -> list[tuple[int, int]]:
    """Moments and values of a value that stays until the next one, cut to the time that is shown."""
    within = [(moment, value) for moment, value in rows if moment <= bars.high]
    before = [value for moment, value in within if moment <= bars.low][-1:]
    cut = [(bars.low, value) for value in before] + [row for row in within if row[0] > bars.low]
    return cut + [(bars.end, cut[-1][1])] if cut else []


def ambr(base: sqlite3.Connection, slot: int, way: str, bars: Bars) -> list[tuple[int, int]]:
    """The AMBR, kbps, from each of its settings on."""
    return steps_of(
        base.execute(
            f"SELECT moment, {way} FROM rate WHERE slot = ? AND life IS NULL ORDER BY line", (slot,)
        ).fetchall(),
        bars,
    )


def waiting(base: sqlite3.Connection, slot: int, bars: Bars) -> list[tuple[int, int]]:
    """How many packets wait for an eNodeB, from each change on."""
    changes = base.execute(
        "SELECT moment, 1 change, line FROM packet WHERE slot = ? AND verdict = 'held' UNION ALL "
        "SELECT moment, -1, entry FROM fate WHERE slot = ? ORDER BY 1, 2 DESC",
        (slot, slot),
    ).fetchall()
    level, rows = 0, [(bars.low, 0)]
    for moment, change, _ in changes:
        level += change
        rows.append((moment, level))
    return steps_of(rows, bars)
