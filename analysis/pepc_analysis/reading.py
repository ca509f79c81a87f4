"""One pass over a trace and its report, side by side: the rows of the tables.

A report has one entry N, C, P or F for each line of the trace, in the order of the lines, so that each entry takes the
moment and kind of its line. Remembered are bearers, held packets, and the commands of the open epoch alone: memory
doesn't grow with the lines."""
from functools import partial
from typing import BinaryIO, Callable

from . import entries, schema, wire
from .faults import BAD_LINE, BAD_REPORT, Fault, TOO_LONG, at
from .lives import Lives, Misfit

LONGEST = 132_000  # octets of a line, without its newline
EPOCH_LINES, EPOCH_OCTETS = 65_536, 67_108_864
FLUSHED = 2_000_000  # octets of the report between two times that rows are handed on
COMMANDS = {b"S11", b"ATTACH", b"BEARER", b"FILTERS", b"DROP", b"AMBR"}
KINDS = {b"S1U": "S1U", b"SGI": "SGI"}
WAYS = {
    ("S1U", "up"),
    ("S1U", "spoof"),
    ("S1U", "nobearer"),
    ("S1U", "policed"),
    ("SGI", "down"),
    ("SGI", "nobearer"),
    ("SGI", "policed"),
    ("SGI", "idle"),
    ("SGI", "held"),
}
NOT_ITS_FIELDS = (ValueError, IndexError, StopIteration)


class Reading:
    """The state of the pass: where it stands in both files, and the rows that wait."""

    def __init__(self, trace: BinaryIO, report: BinaryIO, names: tuple[str, str], keep: bool):
        self.trace_name, self.report_name = names
        self.keep = keep
        self.trace_line = partial(trace.readline, LONGEST + 2)
        self.report_line = partial(report.readline, LONGEST + 2)
        self.rows: dict[str, list[tuple]] = {table.name: [] for table in schema.TABLES}
        self.add_packet = self.rows["packet"].append
        self.line = self.at = 0
        self.epoch, self.in_epoch, self.octets = -1, EPOCH_LINES, 0
        self.moment = 0
        self.stopped = False  # a refused line: no entry of a line stands behind it
        self.lives = Lives()
        self.packets = [0] * (entries.MOST_SLOT + 1)  # the next number of each slot
        self.orders = [0] * (entries.MOST_SLOT + 1)
        self.held: dict[tuple[int, int], int] = {}  # octets of the packets that wait
        self.commands: dict[tuple[int, int], int] = {}  # moments of the epoch's commands
        self.addresses: dict[bytes, str] = {}
        self.unanswered_from: int | None = None
        self.short = False

    def fault(self, why: str) -> Fault:
        """The fault of the entry where the pass stands."""
        return at(self.report_name, self.at, why, BAD_REPORT)

    def line_fault(self, why: str) -> Fault:
        """The fault of the trace's line where the pass stands."""
        return at(self.trace_name, self.line, why, BAD_LINE)

    def take_line(self, told: bytes) -> bytes:
        """The next line of the trace, without its newline, which the entry must be of."""
        text = self.read_line()
        line = self.line
        if not text:
            raise self.fault(f"an entry of line {line}, which {self.trace_name} doesn't have")
        if int(told) != line:
            raise self.fault(f"an entry of line {told.decode()} where one of line {line} was due")
        if self.stopped:
            raise self.fault("an entry of a line behind the refused one")
        if self.in_epoch >= EPOCH_LINES or self.octets >= EPOCH_OCTETS:
            self.epoch, self.in_epoch, self.octets = self.epoch + 1, 0, 0
            self.commands.clear()
        self.in_epoch += 1
        if text[-1] == 10:
            text = text[:-1]
        self.octets += len(text)
        return text

    def read_line(self) -> bytes:
        """The next line of the trace as it stands, or nothing at its end."""
        text = self.trace_line()
        self.line += 1
        if len(text) > LONGEST and (text[-1] != 10 or len(text) > LONGEST + 1):
            raise at(self.trace_name, self.line, f"more than {LONGEST:,} octets", TOO_LONG)
        return text

    def moment_of(self, word: bytes) -> int:
        """The moment of the line, which isn't below that of the line before."""
        if not word.isdigit() or len(word) > 16 or (word[0] == 48 and word != b"0"):
            raise self.line_fault("its moment is no number below 2^50")
        moment = int(word)
        if moment > entries.MOST_MOMENT or moment < self.moment:
            raise self.line_fault("its moment is above 2^50 - 1, or below that of the line before")
        self.moment = moment
        return moment

    def slot_of(self, word: bytes) -> int:
        """A slot's number."""
        slot = int(word)
        if slot > entries.MOST_SLOT:
            raise self.fault(f"slot {slot}, where {entries.MOST_SLOT} is the last")
        return slot

    def number_of(self, numbers: list[int], slot: int, word: bytes) -> int:
        """The number of a slot's command or packet, which are numbered on."""
        number = int(word)
        if number != numbers[slot]:
            raise self.fault(f"number {number} of slot {slot}, where {numbers[slot]} was due")
        numbers[slot] = number + 1
        return number

    def address_of(self, word: bytes) -> str:
        """A dotted address; each text is looked at once."""
        known = self.addresses.get(word)
        if known is None:
            if not entries.DOTTED.fullmatch(word):
                raise self.fault(f"no address: {word.decode()}")
            if len(self.addresses) > 100_000:
                self.addresses.clear()
            known = self.addresses[word] = word.decode()
        return known

    def size_of(self, digits: bytes) -> int:
        """How many octets hexadecimal digits are."""
        if len(digits) & 1:
            raise self.fault("no entry: an odd number of hexadecimal digits")
        return len(digits) >> 1

    def tunnelled(self, digits: bytes) -> int:
        """How many octets the packet in a G-PDU has, behind its head of 8."""
        size = self.size_of(digits) - 8
        if size < 0:
            raise self.fault("no entry: a G-PDU of fewer than 8 octets")
        return size

    def octets_of(self, digits: bytes | None) -> bytes | None:
        """The octets of digits, or none of `-`."""
        if digits is None or digits == b"-":
            return None
        self.size_of(digits)
        return bytes.fromhex(digits.decode())

    def packet(self, found: tuple) -> None:
        """A P entry with its line."""
        (
            told,
            slot,
            number,
            met,
            up,
            up_life,
            up_data,
            down,
            down_life,
            address,
            down_data,
            plain,
            stopped,
            stopped_life,
            held,
            held_life,
            notification,
            place,
            parked,
        ) = found
        words = self.take_line(told).split(b" ", 2)
        kind = KINDS.get(words[1]) if len(words) == 3 else None
        if kind is None:
            raise self.fault("a packet's entry, where the line is no packet")
        moment = self.moment_of(words[0])
        slot = self.slot_of(slot)
        number = self.number_of(self.packets, slot, number)
        enodeb = life = data = None
        if up:
            verdict, life, octets, data = "up", int(up_life), self.size_of(up_data), up_data
        elif down:
            verdict, life, octets, data = "down", int(down_life), self.tunnelled(down_data), down_data
            enodeb = self.address_of(address)
        else:
            octets = self.offered(words)
            if plain:
                verdict = plain.decode()
            elif stopped:
                verdict, life = stopped.decode(), int(stopped_life)
            else:
                verdict, life = "held", int(held_life)
                self.held[slot, number] = octets
                if notification != b"-":
                    self.rows["notification"].append((self.line, self.octets_of(notification)))
        if (kind, verdict) not in WAYS:
            raise self.fault(f"`{verdict}` of a packet of kind {kind}")
        if self.keep and data:
            self.rows["packet_octets"].append((self.line, bytes.fromhex(data.decode())))
        self.add_packet(
            (
                self.line,
                self.epoch,
                moment,
                slot,
                number,
                int(met),
                kind,
                verdict,
                life,
                octets,
                enodeb,
                None if place is None else -1 if place == b"-" else int(place),
                1 if parked else 0,
            )
        )

    def offered(self, words: list[bytes]) -> int:
        """Octets of the IPv4 packet that the line brings, which the entry doesn't tell."""
        try:
            return wire.packet_octets(words[1], words[2])
        except ValueError:
            raise self.line_fault("its octets aren't a packet") from None

    def command(self, found: tuple) -> None:
        """A C entry with its line, and what follows for the bearers."""
        told, slot, number, outcome, message = found
        words = self.take_line(told).split(b" ")
        kind = words[1] if len(words) > 2 else b""
        if kind not in COMMANDS:
            raise self.fault("a command's entry, where the line is no command")
        moment = self.moment_of(words[0])
        slot = self.slot_of(slot)
        number = self.number_of(self.orders, slot, number)
        outcome, reply = outcome.decode(), self.octets_of(message)
        self.commands[slot, number] = moment
        lives = self.lives
        try:
            lives.admit(slot, kind, words)
            lives.take(slot, number, self.line, moment, kind, words, outcome)
            sort = int(words[2][2:4], 16) if kind == b"S11" else None
        except Misfit as why:
            raise self.fault(f"`{outcome}`, though {why}") from None
        except NOT_ITS_FIELDS:
            raise self.line_fault(f"its fields aren't those of a command {kind.decode()}") from None
        self.rows["command"].append(
            (
                self.line,
                self.epoch,
                moment,
                slot,
                number,
                kind.decode(),
                sort,
                outcome,
                reply[1] if reply and len(reply) > 1 else None,
                reply,
            )
        )
        self.rows["bearer_event"] += lives.events
        self.rows["rate"] += lives.rates
        lives.events.clear()
        lives.rates.clear()

    def note(self, found: tuple) -> None:
        """An N entry with its line; a refused line has neither moment nor kind."""
        told, note = found
        words = self.take_line(told).split(b" ")
        note = note.decode()
        moment = kind = slot = place = None
        if note.startswith("line "):
            self.stopped = True
        else:
            moment = self.moment_of(words[0])
            kind = words[1].decode("latin-1") if len(words) > 1 else None
        moved = entries.MOVED.fullmatch(found[1])
        if moved:
            slot, place = self.slot_of(moved[2]), int(moved[3])
        if note == "fence":
            self.in_epoch = EPOCH_LINES
        self.rows["note"].append((self.line, self.epoch, moment, kind, entries.class_of(note), slot, place, note))

    def refused(self, found: tuple) -> None:
        """An F entry with its line."""
        told, slot, what = found
        words = self.take_line(told).split(b" ")
        moment, slot = self.moment_of(words[0]), self.slot_of(slot)
        kind = words[1] if len(words) > 2 else b""
        if what == b"c":
            if kind not in COMMANDS:
                raise self.fault("a command's entry, where the line is no command")
            try:
                self.lives.admit(slot, kind, words)
            except NOT_ITS_FIELDS:
                raise self.line_fault(f"its fields aren't those of a command {kind.decode()}") from None
        elif kind not in KINDS:
            raise self.fault("a packet's entry, where the line is no packet")
        self.rows["refused"].append((self.line, self.epoch, moment, slot, "command" if what == b"c" else "packet"))

    def moment_of_command(self, slot: int, number: int) -> int:
        """The moment of a command of the open epoch, to which effects belong."""
        moment = self.commands.get((slot, number))
        if moment is None:
            raise self.fault(f"an effect of command {number} of slot {slot}, which the epoch doesn't have")
        return moment

    def fate(self, found: tuple) -> None:
        """An H entry: its packet waits no more."""
        slot, packet, command, down, down_life, address, data, lost, lost_life = found
        slot, packet, command = self.slot_of(slot), int(packet), int(command)
        moment = self.moment_of_command(slot, command)
        octets = self.held.pop((slot, packet), None)
        if octets is None:
            raise self.fault(f"the fate of packet {packet} of slot {slot}, which isn't held")
        if down:
            row = (
                "down",
                int(down_life),
                self.tunnelled(data),
                self.address_of(address),
                self.octets_of(data) if self.keep else None,
            )
        else:
            row = (lost.decode(), int(lost_life), octets, None, None)
        self.rows["fate"].append((self.at, self.epoch, moment, slot, packet, command, *row))

    def end_marker(self, found: tuple) -> None:
        """An M entry."""
        slot, life, command, address, message = found
        slot, command = self.slot_of(slot), int(command)
        moment = self.moment_of_command(slot, command)
        self.rows["end_marker"].append(
            (self.at, self.epoch, moment, slot, int(life), command, self.address_of(address), self.octets_of(message))
        )

    def counts_of(self, words: tuple) -> tuple:
        """Slot, life, seq, EBI, QCI and the four counts of an R or O entry, in the order of the columns."""
        slot, life, ebi, qci, seq, *counts = map(int, words)
        self.slot_of(words[0])
        if ebi > entries.MOST_OCTET or qci > entries.MOST_OCTET:
            raise self.fault("an EBI or QCI above 255")
        if max(counts) > entries.MOST_COUNT:
            raise self.fault(f"a count above {entries.MOST_COUNT:,}")
        return slot, life, seq, ebi, qci, *counts

    def record(self, found: tuple) -> None:
        """An R entry."""
        moments = [None if word == b"-" else int(word) for word in found[9:11]]
        if any(moment is not None and moment > entries.MOST_MOMENT for moment in moments):
            raise self.fault("a moment above 2^50 - 1")
        counts = self.counts_of(found[:9])
        self.rows["record"].append((self.at, max(self.epoch, 0), *counts, *moments, found[11].decode()))

    def open_counter(self, found: tuple) -> None:
        """An O entry."""
        self.rows["open_counter"].append((self.at, *self.counts_of(found)))

    def run(self, hand_over: Callable[[dict[str, list[tuple]]], None]) -> None:
        """Reads both files to the end of the report; rows are handed over from time to time, and once at the end."""
        readers = {first: (pattern.fullmatch, getattr(self, name)) for first, pattern, name in READERS}
        waiting = 0
        for entry in iter(self.report_line, b""):
            self.at += 1
            reader = readers.get(entry[0])
            found = reader[0](entry) if reader else None
            if found is None:
                if len(entry) > LONGEST + 1:
                    raise at(self.report_name, self.at, f"more than {LONGEST:,} octets", TOO_LONG)
                raise self.fault(entries.why_none(entry))
            reader[1](found.groups())
            waiting += len(entry)
            if waiting >= FLUSHED:
                hand_over(self.rows)
                waiting = 0
        self.rows["subscriber"] = sorted(self.lives.imsis.items())
        hand_over(self.rows)
        self.look_behind()

    def look_behind(self) -> None:
        """Whether lines of the trace are left that no entry answers. Behind a refused line, and from a line that is
        too long on, none is due."""
        answered = self.line
        try:
            left = self.read_line()
            self.short = bool(left) and not self.stopped
        except Fault as fault:
            if fault.status != TOO_LONG:
                raise
            left, self.short = b"x", False
        self.unanswered_from = answered + 1 if left else None
        self.line = answered


READERS = [
    (ord("P"), entries.PACKET, "packet"),
    (ord("C"), entries.COMMAND, "command"),
    (ord("N"), entries.NOTE, "note"),
    (ord("F"), entries.REFUSED, "refused"),
    (ord("H"), entries.FATE, "fate"),
    (ord("M"), entries.END_MARKER, "end_marker"),
    (ord("R"), entries.RECORD, "record"),
    (ord("O"), entries.OPEN_COUNTER, "open_counter"),
]
