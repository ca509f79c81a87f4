"""The tables of a trace and its report: each table, column, type and unit stands here, once. The database is made from
this list, and docs/ANALYSIS.md has the same list, which `analysis/check` compares.

Moments are microseconds of the trace, octets those of IPv4 packets (without the head of GTP-U), rates kbps."""
from typing import NamedTuple

VERSION = 1

# fmt: off: a column has a line


class Column(NamedTuple):
    """A column: its name, its type (with ` NULL` where it may be missing), and what it says."""

    name: str
    type: str
    says: str


class Table(NamedTuple):
    """A table: what a row is, its columns, and its key (of several columns, or none where a column is it)."""

    name: str
    says: str
    columns: list[Column]
    key: str = ""


LINE = Column("line", "INTEGER PRIMARY KEY", "line of the trace, from 1")
EPOCH = Column("epoch", "INTEGER", "epoch of the line, command or record, from 0")
MOMENT = Column("moment", "INTEGER", "moment of the line, or of the command of an effect, microseconds")
SLOT = Column("slot", "INTEGER", "number of the subscriber, from 0")
LIFE = Column("life", "INTEGER", "bearer of the slot, from 0")
ENTRY = Column("entry", "INTEGER PRIMARY KEY", "line of the report, from 1")
OF_LINE = [LINE, EPOCH, MOMENT, SLOT]
OF_EFFECT = [ENTRY, EPOCH, MOMENT, SLOT]
COUNTS = [
    Column("ebi", "INTEGER", "EPS bearer identity"),
    Column("qci", "INTEGER", "QoS class"),
    Column("up", "INTEGER", "octets up"),
    Column("down", "INTEGER", "octets down"),
    Column("pup", "INTEGER", "packets up"),
    Column("pdown", "INTEGER", "packets down"),
]

TABLES = [
    Table(
        "run",
        "the one row about both files",
        [
            Column("schema", "INTEGER", "version of this schema"),
            Column("trace", "TEXT", "name of the trace's file"),
            Column("report", "TEXT", "name of the report's file"),
            Column("trace_octets", "INTEGER", "size of the trace, octets"),
            Column("report_octets", "INTEGER", "size of the report, octets"),
            Column("lines", "INTEGER", "lines of the trace that have an entry"),
            Column("entries", "INTEGER", "entries of the report"),
            Column("epochs", "INTEGER", "epochs that were begun"),
            Column("unanswered_from", "INTEGER NULL", "first line of the trace without an entry"),
            Column("audit", "TEXT", "what `pepc audit` said (`yes`, `no 4`), or `not audited`"),
        ],
    ),
    Table(
        "subscriber",
        "a slot",
        [
            Column("slot", "INTEGER PRIMARY KEY", "number of the subscriber, in the order of first admission"),
            Column("imsi", "TEXT", "its IMSI, digits"),
        ],
    ),
    Table(
        "packet",
        "a P entry with its line",
        [
            *OF_LINE,
            Column("number", "INTEGER", "number of the slot's packet, from 0"),
            Column("met", "INTEGER", "commands of the slot done before it"),
            Column("kind", "TEXT", "`S1U` (up) or `SGI` (down)"),
            Column("verdict", "TEXT", "`up`, `down`, `nobearer`, `spoof`, `idle`, `held`, `policed`"),
            Column("life", "INTEGER NULL", "bearer of the slot that it was judged for"),
            Column("octets", "INTEGER", "octets of the IPv4 packet"),
            Column("enodeb", "TEXT NULL", "address that it went down to"),
            Column("place", "INTEGER NULL", "slice that handled it; -1 at the end of an epoch (`@-`)"),
            Column("parked", "INTEGER", "1 where it was parked, else 0"),
        ],
    ),
    Table(
        "notification",
        "the message of a `held` verdict",
        [LINE, Column("message", "BLOB", "octets of the Downlink Data Notification")],
    ),
    Table(
        "packet_octets",
        "with `--octets`: the octets of an `up` or `down` verdict",
        [LINE, Column("data", "BLOB", "the IPv4 packet that went up, the G-PDU that went down")],
    ),
    Table(
        "command",
        "a C entry with its line",
        [
            *OF_LINE,
            Column("number", "INTEGER", "number of the slot's command, from 0"),
            Column("kind", "TEXT", "`S11`, `ATTACH`, `BEARER`, `FILTERS`, `DROP`, `AMBR`"),
            Column("type", "INTEGER NULL", "GTPv2-C message type of an `S11` line"),
            Column("outcome", "TEXT", "`ok`, `no` or `again`"),
            Column("reply_type", "INTEGER NULL", "message type of the reply"),
            Column("reply", "BLOB NULL", "octets that go to the MME"),
        ],
    ),
    Table(
        "note",
        "an N entry with its line",
        [
            LINE,
            EPOCH,
            Column("moment", "INTEGER NULL", "moment of the line, microseconds; none of a refused line"),
            Column("kind", "TEXT NULL", "kind of the line; none of a refused line"),
            Column("class", "TEXT", "the note's words, without slot, slice, element and octets"),
            Column("slot", "INTEGER NULL", "subscriber of `move` and `stay`"),
            Column("slice", "INTEGER NULL", "slice of `move` and `stay`"),
            Column("note", "TEXT", "the whole note"),
        ],
    ),
    Table(
        "refused",
        "an F entry with its line",
        [*OF_LINE, Column("what", "TEXT", "`command` or `packet`: its queue was full")],
    ),
    Table(
        "fate",
        "an H entry: what became of a held packet",
        [
            *OF_EFFECT,
            Column("packet", "INTEGER", "number of the slot's packet"),
            Column("command", "INTEGER", "number of the slot's command that ended the wait"),
            Column("fate", "TEXT", "`down`, `policed` or `gone`"),
            LIFE,
            Column("octets", "INTEGER", "octets of the IPv4 packet"),
            Column("enodeb", "TEXT NULL", "address that it went down to"),
            Column("data", "BLOB NULL", "octets of the G-PDU; with `--octets`"),
        ],
    ),
    Table(
        "end_marker",
        "an M entry: an End Marker to the eNodeB before",
        [
            *OF_EFFECT,
            LIFE,
            Column("command", "INTEGER", "number of the slot's command that moved the bearer"),
            Column("enodeb", "TEXT", "address that it went to"),
            Column("message", "BLOB", "octets of the GTP-U message"),
        ],
    ),
    Table(
        "record",
        "an R entry: a finished piece of a life",
        [
            ENTRY,
            EPOCH,
            SLOT,
            LIFE,
            Column("seq", "INTEGER", "number of the life's record, from 0"),
            *COUNTS,
            Column("first", "INTEGER NULL", "moment of the piece's first packet, microseconds"),
            Column("last", "INTEGER NULL", "moment of its last packet, microseconds"),
            Column("why", "TEXT", "`volume`, `qos` or `gone`"),
        ],
    ),
    Table(
        "open_counter",
        "an O entry: the piece of a life that isn't over",
        [ENTRY, SLOT, LIFE, Column("seq", "INTEGER", "records that the life has"), *COUNTS],
    ),
    Table(
        "bearer_event",
        "derived from commands: a turn in a bearer's life",
        [
            Column("line", "INTEGER", "line of the command"),
            MOMENT,
            SLOT,
            LIFE,
            Column("command", "INTEGER", "number of the slot's command"),
            Column("event", "TEXT", "`begin`, `enodeb` (it has this one from here), `idle` (it has none), `end`"),
            Column("enodeb", "TEXT NULL", "address of the eNodeB"),
            Column("teid", "INTEGER NULL", "TEID of the eNodeB"),
        ],
    ),
    Table(
        "rate",
        "derived from commands: rates in force from here",
        [
            Column("line", "INTEGER", "line of the command"),
            MOMENT,
            SLOT,
            Column(
                "life", "INTEGER NULL", "the bearer of QCI 1 to 4 whose maximum rate it is; none: the slot's AMBR"
            ),
            Column("up", "INTEGER", "kbps up"),
            Column("down", "INTEGER", "kbps down"),
        ],
    ),
]

# fmt: on

INDEXES = [
    "CREATE UNIQUE INDEX packet_of_slot ON packet (slot, number)",
    "CREATE UNIQUE INDEX command_of_slot ON command (slot, number)",
    "CREATE INDEX packet_at ON packet (moment)",
    "CREATE UNIQUE INDEX fate_of_packet ON fate (slot, packet)",
    "CREATE UNIQUE INDEX record_of_life ON record (slot, life, seq)",
    "CREATE UNIQUE INDEX open_counter_of_life ON open_counter (slot, life)",
    "CREATE INDEX event_of_life ON bearer_event (slot, life)",
]

SUMS = "sum(up) up, sum(down) down, sum(pup) pup, sum(pdown) pdown"
VIEWS = {
    "charged": (
        "the sums of a life's records and open counter",
        f"""
        SELECT slot, life, {SUMS} FROM (SELECT slot, life, up, down, pup, pdown FROM record
          UNION ALL SELECT slot, life, up, down, pup, pdown FROM open_counter) GROUP BY slot, life""",
    ),
    "forwarded": (
        "a packet that was forwarded, at once or from being held",
        """
        SELECT slot, life, iif(verdict = 'up', octets, 0) up, iif(verdict = 'down', octets, 0) down,
          verdict = 'up' pup, verdict = 'down' pdown FROM packet WHERE verdict IN ('up', 'down')
        UNION ALL SELECT slot, life, 0, octets, 0, 1 FROM fate WHERE fate = 'down'""",
    ),
    "unequal": (
        "a life whose charges aren't what was forwarded: charged less forwarded",
        f"""
        SELECT slot, life, {SUMS} FROM (SELECT * FROM charged
          UNION ALL SELECT slot, life, -up, -down, -pup, -pdown FROM forwarded)
        GROUP BY slot, life HAVING sum(up) <> 0 OR sum(down) <> 0 OR sum(pup) <> 0 OR sum(pdown) <> 0""",
    ),
    "bearer": (
        "a life that has charges, with its begin and end (none: it isn't over), microseconds",
        """
        SELECT c.slot, c.life, c.ebi, c.qci,
          (SELECT moment FROM bearer_event e WHERE e.slot = c.slot AND e.life = c.life AND event = 'begin') begin,
          (SELECT moment FROM bearer_event e WHERE e.slot = c.slot AND e.life = c.life AND event = 'end') "end"
        FROM (SELECT slot, life, ebi, qci FROM record UNION SELECT slot, life, ebi, qci FROM open_counter) c""",
    ),
    "unmatched": (
        "a life whose charges don't fit its begin and end",
        """
        SELECT slot, life, 'charges without a begin' why FROM bearer WHERE begin IS NULL
        UNION ALL SELECT slot, life, 'an open counter behind its end' FROM open_counter o WHERE EXISTS
          (SELECT 1 FROM bearer_event e WHERE e.slot = o.slot AND e.life = o.life AND event = 'end')
        UNION ALL SELECT slot, life, 'a record of its end, and no end' FROM record r WHERE why = 'gone' AND NOT EXISTS
          (SELECT 1 FROM bearer_event e WHERE e.slot = r.slot AND e.life = r.life AND event = 'end')
        UNION ALL SELECT slot, life, 'a begin without charges' FROM bearer_event b WHERE event = 'begin' AND NOT EXISTS
          (SELECT 1 FROM charged c WHERE c.slot = b.slot AND c.life = b.life)""",
    ),
}


def statement_of(table: Table) -> str:
    """The statement that makes a table."""

    def text_of(column: Column) -> str:
        kind = column.type.removesuffix(" NULL")
        return f'"{column.name}" {kind}' if kind != column.type else f'"{column.name}" {kind} NOT NULL'

    columns = ", ".join(map(text_of, table.columns))
    return f"CREATE TABLE {table.name} ({columns}) STRICT"


def insertion_of(table: Table) -> str:
    """The statement that puts a row in a table."""
    return f"INSERT INTO {table.name} VALUES ({','.join('?' * len(table.columns))})"


SHARED = [LINE, EPOCH, MOMENT, SLOT, LIFE, ENTRY, *COUNTS]


def page() -> str:
    """The schema as it stands in docs/ANALYSIS.md: columns that tables share once, then each table with its own."""

    def row_of(name: str, column: Column) -> str:
        kind = column.type.replace(" PRIMARY KEY", ", key").replace(" NULL", " or none")
        return f"| {name}{column.name} | {kind} | {column.says} |"

    lines = ["| Column | Type | Says |", "|---|---|---|"]
    lines += [row_of("", column) for column in SHARED if column not in COUNTS]
    names, says = (", ".join(words) for words in zip(*((column.name, column.says) for column in COUNTS)))
    lines.append(f"| {names} | INTEGER | {says} |")
    for table in TABLES:
        shared = ", ".join(column.name for column in table.columns if column in SHARED)
        lines.append(f"| **{table.name}** | {shared} | {table.says} |")
        lines += [row_of(f"{table.name}.", column) for column in table.columns if column not in SHARED]
    lines += [f"| view **{name}** | | {says} |" for name, (says, _) in VIEWS.items()]
    return "\n".join(lines) + "\n"
