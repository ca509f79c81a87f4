"""The tables of every stored report: its entries are written again from their columns, and what is derived is compared
with what the packets met."""
import sqlite3
import subprocess

from pepc_analysis.making import make_tables

from .harness import Check, DEMO, Pair, made, pepc, stored_pairs


def tail(place: int | None, parked: int) -> str:
    """Where a packet was handled, as an entry tells it."""
    if place is None:
        return ""
    return (" @-" if place == -1 else f" @{place}") + (" p" if parked else "")


def hexes(octets: bytes | None) -> str:
    """Octets as an entry tells them."""
    return octets.hex() if octets is not None else "-"


def of_lines(base: sqlite3.Connection) -> dict[int, str]:
    """The entries N, C, P and F by their lines, from the columns."""
    found = {}
    for line, note in base.execute("SELECT line, note FROM note"):
        found[line] = f"N {line} {note}"
    for line, slot, number, outcome, reply in base.execute("SELECT line, slot, number, outcome, reply FROM command"):
        found[line] = f"C {line} {slot} {number} {outcome} {hexes(reply)}"
    for line, slot, what in base.execute("SELECT line, slot, what FROM refused"):
        found[line] = f"F {line} {slot} {what[0]}"
    for line, slot, number, met, verdict, life, enodeb, message, data, place, parked in base.execute(
        "SELECT line, slot, number, met, verdict, life, enodeb, message, data, place, parked FROM packet "
        "LEFT JOIN notification USING (line) LEFT JOIN packet_octets USING (line)"
    ):
        words = {
            "up": [life, hexes(data)],
            "down": [life, enodeb, hexes(data)],
            "held": [life, hexes(message)],
            "idle": [life],
            "policed": [life],
            "spoof": [],
            "nobearer": [],
        }[verdict]
        found[line] = " ".join(map(str, ["P", line, slot, number, met, verdict, *words])) + tail(place, parked)
    return found


def of_entries(base: sqlite3.Connection) -> dict[int, str]:
    """The entries M, H, R and O by their lines of the report, from the columns."""
    found = {}
    for entry, slot, life, command, enodeb, message in base.execute(
        "SELECT entry, slot, life, command, enodeb, message FROM end_marker"
    ):
        found[entry] = f"M {slot} {life} {command} {enodeb} {hexes(message)}"
    for entry, slot, packet, command, fate, life, enodeb, data in base.execute(
        "SELECT entry, slot, packet, command, fate, life, enodeb, data FROM fate"
    ):
        found[entry] = f"H {slot} {packet} {command} {fate} {life}" + (
            f" {enodeb} {hexes(data)}" if fate == "down" else ""
        )
    for kind, more in (("R", ", first, last, why FROM record"), ("O", " FROM open_counter")):
        for entry, *fields in base.execute(f"SELECT entry, slot, life, ebi, qci, seq, up, down, pup, pdown{more}"):
            found[entry] = " ".join([kind, *("-" if field is None else str(field) for field in fields)])
    return found


def written_again(base: sqlite3.Connection) -> str:
    """The report, from the columns alone."""
    lines, others = of_lines(base), of_entries(base)
    rest = iter(sorted(lines))
    return "".join(
        (others[entry] if entry in others else lines.get(next(rest, 0), "nothing")) + "\n"
        for entry in range(1, len(lines) + len(others) + 1)
    )


def octets_in(line: list[bytes], entry: list[bytes]) -> int:
    """Octets of a packet's line, reckoned from the line alone."""
    octets = bytes.fromhex(line[2].decode())
    if line[1] == b"S1U":
        place = 12 if octets[0] & 7 else 8
        kind = octets[11] if octets[0] & 4 else 0
        while kind:
            place, kind = place + 4 * octets[place], octets[place + 4 * octets[place] - 1]
        octets = octets[place:]
    return octets[2] * 256 + octets[3]


def look_at_lines(check: Check, pair: Pair, base: sqlite3.Connection) -> None:
    """Moments, kinds, octets and epochs, reckoned from both texts anew."""
    trace = [line.split(b" ") for line in pair.trace.read_bytes().split(b"\n")]
    epoch, lines, octets, wanted, records, ends = 0, 0, 0, [], [], False
    of_commands, effects = {}, []
    for entry in pair.report.read_bytes().splitlines():
        words = entry.split(b" ")
        if words[0] in b"NCPF":
            if ends:
                epoch, lines, octets, ends = epoch + 1, 0, 0, False
            line = trace[int(words[1]) - 1]
            lines, octets = lines + 1, octets + len(b" ".join(line))
            ends = entry.endswith(b" fence") or lines == 65_536 or octets >= 67_108_864
            refused = words[2] == b"line"
            size = octets_in(line, words) if words[0] == b"P" else None
            wanted.append(
                (int(words[1]), epoch, None if refused else int(line[0]), None if refused else line[1].decode(), size)
            )
            if words[0] == b"C":
                of_commands[words[2], words[3]] = int(line[0])
        elif words[0] == b"R":
            records.append(epoch)
        elif words[0] in b"HM":
            effects.append((epoch, of_commands[words[1], words[3]]))
    kinds = {line: kind for line, _, _, kind, _ in wanted}
    found = base.execute(
        "SELECT line, epoch, moment, kind, octets FROM packet UNION ALL SELECT line, epoch, moment, kind, NULL "
        "FROM command UNION ALL SELECT line, epoch, moment, kind, NULL FROM note"
    ).fetchall()
    found += [(*row, kinds[row[0]], None) for row in base.execute("SELECT line, epoch, moment FROM refused")]
    check.same(f"{pair.name}: epoch, moment, kind and octets of each line", sorted(found), wanted)
    check.same(
        f"{pair.name}: epochs of records",
        [row[0] for row in base.execute("SELECT epoch FROM record ORDER BY entry")],
        records,
    )
    check.same(
        f"{pair.name}: epochs and moments of effects",
        base.execute(
            "SELECT epoch, moment FROM (SELECT entry, epoch, moment FROM fate UNION ALL "
            "SELECT entry, epoch, moment FROM end_marker) ORDER BY entry"
        ).fetchall(),
        effects,
    )


def look_at_lives(check: Check, pair: Pair, base: sqlite3.Connection) -> None:
    """A bearer's events by what its packets met: the eNodeB in force is that of each packet down, none is there where
    one is held, and each packet stands within its bearer's life. Effects and records tell the same turns."""
    events: dict[tuple[int, int], list[tuple]] = {}
    for slot, life, *event in base.execute(
        "SELECT slot, life, command, event, enodeb, moment FROM bearer_event ORDER BY line"
    ):
        events.setdefault((slot, life), []).append(tuple(event))
    wrong = []
    for line, slot, met, verdict, life, enodeb in base.execute(
        "SELECT line, slot, met, verdict, life, enodeb FROM packet WHERE life IS NOT NULL"
    ):
        before = [event for event in events.get((slot, life), []) if event[0] < met]
        if not before or before[-1][1] == "end":
            wrong.append((line, verdict, "outside its life"))
        elif (
            verdict == "down" and before[-1][2] != enodeb or verdict in ("held", "idle") and before[-1][2] is not None
        ):
            wrong.append((line, verdict, before[-1]))
    check.same(f"{pair.name}: packets against the events of their bearers", wrong, [])
    ends = {(slot, life) for slot, life in base.execute("SELECT slot, life FROM record WHERE why = 'gone'")}
    check.same(
        f"{pair.name}: lives that end", {life for life, turns in events.items() if turns[-1][1] == "end"}, ends
    )
    markers = base.execute("SELECT slot, life, command, enodeb FROM end_marker").fetchall()
    left = [
        (slot, life, turn[0], before[2])
        for (slot, life), turns in events.items()
        for before, turn in zip(turns, turns[1:])
        if turn[1] == "enodeb" and before[2] is not None
    ]
    check.same(f"{pair.name}: End Markers where the eNodeB changes", sorted(left), sorted(markers))
    rates = base.execute("SELECT line, up, down FROM rate WHERE life IS NULL ORDER BY line").fetchall()
    set_by = {
        line
        for line, in base.execute(
            "SELECT line FROM command WHERE outcome = 'ok' AND (kind IN ('ATTACH', 'AMBR') " "OR type = 32)"
        )
    }
    check.same(f"{pair.name}: commands that set the AMBR", {line for line, _, _ in rates}, set_by)
    trace = pair.trace.read_bytes().split(b"\n")
    for line, up, down in rates:
        words = trace[line - 1].split(b" ")
        if words[1] in (b"ATTACH", b"AMBR"):
            check.same(f"{pair.name}: rates of line {line}", (up, down), (int(words[-2]), int(words[-1])))


def look(check: Check, pair: Pair) -> None:
    """A pair whose report is lawful."""
    out = check.room / "stored.sqlite"
    if not check.same(
        f"{pair.name}: what isn't as it must be", make_tables(str(pair.trace), str(pair.report), str(out), True), []
    ):
        return
    base = sqlite3.connect(out)
    check.same(f"{pair.name}: view unequal", base.execute("SELECT * FROM unequal").fetchall(), [])
    check.same(
        f"{pair.name}: the report, written again from the columns",
        written_again(base).encode(),
        pair.report.read_bytes(),
    )
    entries = pair.report.read_bytes().count(b"\n")
    check.same(f"{pair.name}: entries", base.execute("SELECT entries FROM run").fetchone()[0], entries)
    look_at_lines(check, pair, base)
    look_at_lives(check, pair, base)
    base.close()
    out.unlink()


def run(check: Check) -> None:
    pairs = list(stored_pairs(check.room))
    check.holds(f"{len(pairs)} stored reports", len(pairs) > 140)
    whole = (DEMO.parents[1] / "examples/whole-trace.trace").read_bytes()
    pairs += [
        made(check.room, "replayed", whole, ["replay", "--places"]),
        made(check.room, "demo", DEMO.read_bytes()),
        made(check.room, "demo-replayed", DEMO.read_bytes(), ["replay", "--slices", "2", "--places"]),
        made(check.room, "epochs", pepc(["make", "--seed", "3", "--subs", "50", "--lines", "66000"])),
    ]
    for pair in pairs:
        look(check, pair)
    check.same(
        "the trace of demonstration is what analysis/demo writes",
        subprocess.run([DEMO.with_suffix("")], stdout=subprocess.PIPE).stdout == DEMO.read_bytes(),
        True,
    )
