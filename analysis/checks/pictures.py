"""The pictures by what is drawn in them: bars, marks and steps against sums reckoned from the report's text."""
import collections
import math
import xml.etree.ElementTree

from pepc_analysis import pictures, sums
from pepc_analysis.making import make_tables

from .harness import Check, DEMO, Pair, TOP, made, pepc
from .stored import octets_in

FORWARDED, SENT, LOST = sums.FORWARDED, sums.SENT, sums.LOST


def packets_of(pair: Pair) -> list[tuple]:
    """Slot, moment, way, what became of it, octets and wait of each packet, from the texts of trace and report."""
    trace = [line.split(b" ") for line in pair.trace.read_bytes().split(b"\n")]
    entries = [entry.split(b" ") for entry in pair.report.read_bytes().splitlines()]
    moments = {(words[2], words[3]): int(trace[int(words[1]) - 1][0]) for words in entries if words[0] == b"C"}
    fates = {(words[1], words[2]): (words[4], moments[words[1], words[3]]) for words in entries if words[0] == b"H"}
    gbr = {(words[1], words[2]) for words in entries if words[0] in b"RO" and int(words[4]) <= 4}
    found = []
    for words in entries:
        if words[0] != b"P":
            continue
        line = trace[int(words[1]) - 1]
        verdict, wait = words[5].decode(), None
        if verdict in ("up", "down"):
            outcome = FORWARDED
        elif verdict in ("spoof", "nobearer"):
            outcome = sums.REFUSED
        elif verdict == "held":
            fate, moment = fates.get((words[2], words[3]), (None, None))
            outcome = sums.WAITING if fate is None else SENT if fate == b"down" else LOST
            wait = None if moment is None else moment - int(line[0])
        else:
            outcome = verdict
        if verdict in ("up", "down", "policed") and (words[2], words[6]) in gbr:
            outcome += sums.GBR
        found.append(
            (int(words[2]), int(line[0]), sums.WAYS[line[1].decode()], outcome, octets_in(line, words), wait)
        )
    return found


def bars_in(axis) -> dict[str, dict[float, float]]:
    """The heights of an axis' bars, by label and left edge."""
    found: dict[str, dict[float, float]] = {}
    for container in axis.containers:
        for bar in container.patches:
            if bar.get_height():
                found.setdefault(container.get_label(), {})[round(bar.get_x(), 6)] = bar.get_height()
    return found


def near(check: Check, what: str, found: dict, wanted: dict) -> None:
    """Two pictures' bars are the same, but for rounding."""
    if check.same(f"{what}: labels", sorted(found), sorted(wanted)):
        for label in wanted:
            if check.same(f"{what}, {label}: places", sorted(found[label]), sorted(wanted[label])):
                check.holds(
                    f"{what}, {label}: heights",
                    all(math.isclose(found[label][place], wanted[label][place]) for place in wanted[label]),
                )


def stacked(packets: list[tuple], way: str, bars, unit: int, size: float) -> dict:
    """Offered rates as `volume` has them."""
    found: dict = collections.defaultdict(lambda: collections.defaultdict(float))
    for _, moment, its_way, outcome, octets, _ in packets:
        if its_way == way and bars.low <= moment <= bars.high:
            found[outcome][round(moment // bars.step * bars.step / unit, 6)] += octets * 8 / (bars.step / 1e6) / size
    return {outcome: dict(heights) for outcome, heights in found.items()}


def look_at_volume(check: Check, base, packets: list[tuple], bars, what: str) -> None:
    figure = pictures.volume(base, bars, "x")
    name, unit = pictures.time_unit(bars.high - bars.low)
    check.same(
        f"{what}: time axis",
        figure.axes[2].get_xlabel(),
        f"moment of the trace, {name} " f"(bars of {pictures.width_of(bars.step)})",
    )
    for axis, way in ((figure.axes[0], "down"), (figure.axes[1], "up")):
        size = {"kbit/s": 1e3, "Mbit/s": 1e6}[axis.get_ylabel().split("\n")[0].removeprefix("offered, ")]
        near(check, f"{what}: {way}", bars_in(axis), stacked(packets, way, bars, unit, size))
        check.holds(
            f"{what}: {way}: the width of a bar", f"mean of {pictures.width_of(bars.step)}" in axis.get_ylabel()
        )
    counts: dict = collections.defaultdict(lambda: collections.defaultdict(float))
    for _, moment, _, outcome, _, _ in packets:
        if bars.low <= moment <= bars.high and not outcome.startswith(FORWARDED):
            counts[outcome][round(moment // bars.step * bars.step / unit, 6)] += 1 / (bars.step / 1e6)
    near(check, f"{what}: packets", bars_in(figure.axes[2]), {key: dict(value) for key, value in counts.items()})


def look_at_charged(check: Check, base, pair: Pair) -> None:
    figure = pictures.charged(base, "x")
    wanted: dict = collections.defaultdict(lambda: collections.defaultdict(lambda: [0, 0]))
    for entry in pair.report.read_bytes().splitlines():
        words = entry.split(b" ")
        if words[0] in b"RO":
            sums_of = wanted[int(words[1])][int(words[4])]
            sums_of[0] += int(words[6])
            sums_of[1] += int(words[7])
    order = sorted(wanted, key=lambda slot: (-sum(map(sum, wanted[slot].values())), slot))[
        : pictures.MOST_SUBSCRIBERS
    ]
    names = [label.get_text() for label in figure.axes[0].get_yticklabels()]
    check.same("charged: subscribers", [int(name.split(" slot ")[1]) for name in names], order)
    for place, axis in enumerate(figure.axes):
        unit = {"kB": 1_000, "MB": 1_000_000, "octets": 1}[axis.get_xlabel().removeprefix("charged, ").split(" ")[0]]
        for container in axis.containers:
            qci = int(container.get_label().split(" ")[1])
            found = [bar.get_width() * unit for bar in container.patches]
            check.holds(
                f"charged: panel {place}, QCI {qci}",
                all(math.isclose(width, wanted[slot][qci][place], abs_tol=1e-6) for width, slot in zip(found, order)),
            )


def look_at_policing(check: Check, base, packets: list[tuple], bars) -> None:
    figure = pictures.policing(base, bars, "x")
    tried: dict = collections.defaultdict(lambda: [0, 0])
    for slot, _, way, outcome, octets, _ in packets:
        if outcome.startswith((FORWARDED, sums.POLICED)):
            sums_of = tried[slot, way, outcome.endswith(sums.GBR)]
            sums_of[0] += octets
            sums_of[1] += octets * outcome.startswith(sums.POLICED)
    seconds = (bars.high - bars.low) / 1e6
    size = {"kbit/s": 1e3, "Mbit/s": 1e6}[figure.axes[0].get_xlabel().split(" ")[1]]
    marks = [
        tuple(round(value, 6) for value in mark)
        for marks in figure.axes[0].collections
        for mark in marks.get_offsets()
    ]
    check.same(
        "policing: marks",
        sorted(marks),
        sorted(
            (round(octets * 8 / seconds / size, 6), round(100 * policed / octets, 6))
            for octets, policed in tried.values()
        ),
    )
    waits = [wait for *_, wait in packets if wait is not None]
    heights = bars_in(figure.axes[1])
    check.same(
        "policing: held packets that had a fate", sum(sum(bars.values()) for bars in heights.values()), len(waits)
    )
    check.holds(
        "policing: the longest wait is in the last bar",
        not waits or math.isclose(max(max(bars) for bars in heights.values()) * 1e6, max(waits), abs_tol=60_000),
    )


def look_at_subscriber(check: Check, base, packets: list[tuple], bars, slot: int) -> None:
    figure = pictures.subscriber(base, slot, bars, "x")
    mine = [packet for packet in packets if packet[0] == slot]
    for axis, way in ((figure.axes[1], "down"), (figure.axes[2], "up")):
        size = {"kbit/s": 1e3, "Mbit/s": 1e6}[axis.get_ylabel().split("\n")[0].removeprefix("offered, ")]
        near(check, f"subscriber: {way}", bars_in(axis), stacked(mine, way, bars, 1_000_000, size))
    lives = [label.get_text() for label in figure.axes[0].get_yticklabels()]
    check.same("subscriber: bearers", lives, ["life 0: EBI 5, QCI 9", "life 1: EBI 6, QCI 1", "life 2: EBI 6, QCI 1"])
    lengths = collections.Counter()
    for bar in figure.axes[0].patches:
        lengths[round(bar.get_y() + bar.get_height() / 2)] += bar.get_width()
    check.same(
        "subscriber: how long each bearer was there, s",
        [round(lengths[row], 3) for row in range(3)],
        [round(bars.end / 1e6 - 0.8, 3), 9.99, 6.99],
    )
    waits = sum(1 for *_, wait in mine if wait is not None)
    check.holds("subscriber: packets wait", waits > 0 and len(figure.axes[3].collections) == 1)
    steps = [line for line in figure.axes[1].lines if line.get_label().startswith("AMBR")]
    check.same("subscriber: AMBR down, kbit/s", sorted(set(steps[0].get_ydata())), [2.0, 4.0])


def stored_pictures(check: Check, pair: Pair, tables) -> None:
    """Files of the commands; those of docs/ are what this version of matplotlib draws now, if it is the same one."""
    import matplotlib.image

    out = check.room / "files"
    check.command("plots", ["plots", tables, out, "--slot", 4], 0, "")
    for name in ("volume", "charged", "policing", "subscriber-4"):
        check.same(
            f"{name}.svg",
            xml.etree.ElementTree.parse(out / f"{name}.svg").getroot().tag,
            "{http://www.w3.org/2000/svg}svg",
        )
        drawn, kept = (matplotlib.image.imread(folder / f"{name}.png") for folder in (out, TOP / "docs/pictures"))
        if matplotlib.__version__ == "3.6.3":
            check.holds(
                f"docs/pictures/{name}.png is what plots draws of analysis/demo.trace",
                drawn.shape == kept.shape and abs(drawn - kept).max() < 0.02,
            )


def short_and_empty(check: Check) -> None:
    """Short traces have milliseconds; an empty panel says so."""
    short = made(check.room, "short", pepc(["make", "--seed", "2", "--subs", "3", "--lines", "300"]))
    empty = made(check.room, "empty", b"0 ATTACH 001010000000001 198.51.100.7 00000a01 1000 1000\n")
    for pair, words, nones in (
        (short, "moment of the trace, ms (bars of 200 µs)", 1),
        (empty, "moment of the trace, µs (bars of 1 µs)", 3),
    ):
        tables = check.room / f"{pair.name}.sqlite"
        make_tables(str(pair.trace), str(pair.report), str(tables))
        base = sums.opened(str(tables))
        bars = sums.bars_of(base, None, None)
        figure = pictures.volume(base, bars, "x")
        check.same(f"{pair.name}: time axis", figure.axes[2].get_xlabel(), words)
        check.same(
            f"{pair.name}: empty panels of volume",
            sum("none" in [text.get_text() for text in axis.texts] for axis in figure.axes),
            nones,
        )
        check.command(f"{pair.name}: plots", ["plots", tables, check.room / pair.name, "--slot", 0], 0, "")


def run(check: Check) -> None:
    pair = made(check.room, "demo", DEMO.read_bytes())
    tables = check.room / "demo.sqlite"
    check.same("demo: tables", make_tables(str(pair.trace), str(pair.report), str(tables)), [])
    base, packets = sums.opened(str(tables)), packets_of(pair)
    bars = sums.bars_of(base, None, None)
    look_at_volume(check, base, packets, bars, "volume")
    look_at_volume(check, base, packets, sums.bars_of(base, 11, 14.5), "volume from 11 s to 14.5 s")
    look_at_charged(check, base, pair)
    look_at_policing(check, base, packets, bars)
    look_at_subscriber(check, base, packets, bars, 4)
    outcomes = {outcome for _, _, _, outcome, _, _ in packets}
    check.holds(
        f"the trace of demonstration shows all: {outcomes}",
        {FORWARDED, FORWARDED + sums.GBR, SENT, LOST, "idle", "policed", sums.REFUSED} <= outcomes,
    )
    stored_pictures(check, pair, tables)
    short_and_empty(check)
    base.close()
