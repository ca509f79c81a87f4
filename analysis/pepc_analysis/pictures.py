"""The pictures of one trace, drawn from sums by matplotlib."""
import os
import sqlite3

import matplotlib

matplotlib.use("Agg")
from matplotlib.axes import Axes  # noqa: E402
from matplotlib.figure import Figure  # noqa: E402
from matplotlib.lines import Line2D  # noqa: E402
from matplotlib.patches import Patch  # noqa: E402

from . import sums  # noqa: E402
from .faults import Fault, WRITE_FAULT, remove  # noqa: E402
from .sums import Bars, FORWARDED, GBR, IDLE, LOST, OUTCOMES, POLICED, REFUSED, SENT, WAITING  # noqa: E402

# Okabe and Ito's colours, which the colour-blind tell apart; what was forwarded is quiet, what was lost is loud
COLOUR = {
    FORWARDED: "#56B4E9",
    FORWARDED + GBR: "#0072B2",
    SENT: "#009E73",
    WAITING: "#8FD3BE",
    IDLE: "#E69F00",
    LOST: "#CC79A7",
    POLICED: "#D55E00",
    POLICED + GBR: "#7A3300",
    REFUSED: "#000000",
}
ROW = ["#56B4E9", "#E69F00", "#009E73", "#CC79A7", "#0072B2", "#D55E00", "#F0E442", "#999999"]
ENODEBS = ["#4477AA", "#EE6677", "#228833", "#CCBB44", "#AA3377", "#66CCEE"]
MOST_SUBSCRIBERS = 20
MOST_MARKS = 2_000
HELD_AT_MOST = 16

matplotlib.rcParams.update(
    {
        "figure.dpi": 100,
        "font.size": 10,
        "axes.spines.top": False,
        "axes.spines.right": False,
        "axes.grid": True,
        "grid.alpha": 0.3,
        "legend.frameon": False,
        "axes.axisbelow": True,
        "svg.hashsalt": "pepc",
    }
)


def save(figure: Figure, folder: str, name: str) -> None:
    """Both files of a picture, each under another name until it is whole."""
    for kind in ("png", "svg"):
        path = f"{folder}/{name}.{kind}"
        new = f"{path}.{os.getpid()}.new"
        try:
            os.makedirs(folder, exist_ok=True)
            figure.savefig(new, format=kind, metadata={"Date": None} if kind == "svg" else {"Software": None})
            os.replace(new, path)
        except OSError as why:
            raise Fault(WRITE_FAULT, f"{path}: {why.strerror or why}") from None
        finally:
            remove(new)


def width_of(step: int) -> str:
    """A time of some microseconds in words."""
    for unit, size in (("s", 1_000_000), ("ms", 1_000)):
        if step >= size:
            return f"{step / size:.4g} {unit}"
    return f"{step} µs"


def time_unit(span: int) -> tuple[str, int]:
    """The unit of a time axis, and how many microseconds it is: short traces have milliseconds."""
    return ("s", 1_000_000) if span >= 2_000_000 else ("ms", 1_000) if span >= 2_000 else ("µs", 1)


def rate_unit(most: float) -> tuple[str, float]:
    """The unit of rates up to this many bit/s, and its size."""
    return ("Mbit/s", 1e6) if most >= 2e6 else ("kbit/s", 1e3)


def octet_unit(most: int) -> tuple[str, int]:
    """The unit of octets up to this many, and its size."""
    return ("MB", 1_000_000) if most >= 2_000_000 else ("kB", 1_000) if most >= 2_000 else ("octets", 1)


def nothing(axis: Axes) -> None:
    """An empty panel says so."""
    axis.set_yticks([])
    axis.text(0.5, 0.5, "none", transform=axis.transAxes, ha="center", va="center", color="#666666")


def small_legend(axis: Axes, height: float, **how) -> None:
    """A legend of small letters above a panel, at its right."""
    axis.legend(loc="lower right", bbox_to_anchor=(1.01, height), fontsize=8, columnspacing=0.9, **how)


def titled(axis: Axes, title: str, legend: bool = True) -> None:
    """The title of a panel at its left, the legend at its right."""
    axis.set_title(title, loc="left", fontsize=11)
    if legend and axis.get_legend_handles_labels()[0]:
        small_legend(axis, 0.98, ncol=9, handlelength=1, handletextpad=0.4)


def finished(figure: Figure, title: str) -> Figure:
    """The figure's title, and room for all of it."""
    figure.suptitle(title, x=0.01, ha="left", weight="bold")
    figure.tight_layout()
    return figure


def stack(axis: Axes, bars: Bars, heights: dict[str, list[float]], unit: int) -> float:
    """Stacked bars, a colour for what became of the packets; gives the greatest height."""
    at = [start / unit for start in bars.starts]
    floor = [0.0] * len(at)
    for outcome, values in heights.items():
        if any(values):
            axis.bar(
                at,
                values,
                width=bars.step / unit,
                bottom=floor,
                align="edge",
                color=COLOUR[outcome],
                label=outcome,
                linewidth=0,
            )
            floor = [low + value for low, value in zip(floor, values)]
    axis.grid(axis="x", visible=False)
    axis.set_ylim(0, max(max(floor) * 1.06, 1e-9))
    if not any(floor):
        nothing(axis)
    return max(floor)


def time_axis(axis: Axes, bars: Bars) -> int:
    """The time axis of the lowest panel, with its unit and the width of a bar; gives the unit's microseconds."""
    name, unit = time_unit(bars.high - bars.low)
    axis.set_xlabel(f"moment of the trace, {name} (bars of {width_of(bars.step)})")
    axis.set_xlim(bars.starts[0] / unit, bars.end / unit)
    return unit


def rates_of(found: dict, way: str, bars: Bars) -> dict[str, list[float]]:
    """Offered bit/s of each bar by what became of the packets."""
    return {outcome: [octets * 8 / (bars.step / 1e6) for octets, _ in found[way, outcome]] for outcome in OUTCOMES}


def rate_panel(axis: Axes, bars: Bars, rates: dict[str, list[float]], unit: int) -> tuple[float, float]:
    """A panel of offered rates; gives the size of its unit and the greatest height in it."""
    name, size = rate_unit(max(map(sum, zip(*rates.values()))))
    top = stack(axis, bars, {outcome: [value / size for value in values] for outcome, values in rates.items()}, unit)
    axis.set_ylabel(f"offered, {name}\n(mean of {width_of(bars.step)})")
    return size, top


def volume(base: sqlite3.Connection, bars: Bars, name: str) -> Figure:
    """What became of the packets: rates both ways, and packets that weren't forwarded at once."""
    found = sums.outcomes(base, bars)
    figure = Figure(figsize=(10, 8))
    axes = figure.subplots(3, 1, sharex=True)
    unit = time_axis(axes[2], bars)
    for axis, way, title in ((axes[0], "down", "Downlink"), (axes[1], "up", "Uplink")):
        rate_panel(axis, bars, rates_of(found, way, bars), unit)
        titled(axis, title)
    rest = {
        outcome: [
            (up + down) / (bars.step / 1e6)
            for (_, up), (_, down) in zip(found["up", outcome], found["down", outcome])
        ]
        for outcome in OUTCOMES
        if not outcome.startswith(FORWARDED)
    }
    stack(axes[2], bars, rest, unit)
    axes[2].set_ylabel(f"packets a second\n(mean of {width_of(bars.step)})")
    titled(axes[2], "Both ways, not forwarded at once")
    return finished(figure, f"What became of the packets: {name}")


def charged(base: sqlite3.Connection, name: str) -> Figure:
    """The subscribers with the most charged octets, by QCI."""
    shown, count, octets = sums.greatest(base, MOST_SUBSCRIBERS)
    qcis = sorted({qci for charges in shown for qci in charges.up})
    most = max((max(sum(c.up.values()), sum(c.down.values())) for c in shown), default=0)
    word, unit = octet_unit(most)
    figure = Figure(figsize=(10, 1.8 + 0.28 * max(len(shown), 3)))
    axes = figure.subplots(1, 2, sharey=True)
    for axis, way, title in ((axes[0], "up", "Uplink"), (axes[1], "down", "Downlink")):
        left = [0.0] * len(shown)
        for place, qci in enumerate(qcis):
            width = [getattr(charges, way).get(qci, 0) / unit for charges in shown]
            axis.barh(
                range(len(shown)),
                width,
                left=left,
                height=0.75,
                color=ROW[place % len(ROW)],
                hatch="////" if qci <= 4 else None,
                edgecolor="white",
                linewidth=0,
                label=f"QCI {qci}" + (" (own rate)" if qci <= 4 else ""),
            )
            left = [low + value for low, value in zip(left, width)]
        axis.set_xlabel(f"charged, {word}" + (f" ({unit:,} octets)" if unit > 1 else ""))
        axis.grid(axis="y", visible=False)
        titled(axis, title, way == "down")
    axes[0].set_yticks(range(len(shown)), [f"{charges.imsi}  slot {charges.slot}" for charges in shown], fontsize=9)
    axes[0].set_ylim(len(shown) - 0.4, -0.6)
    axes[0].set_ylabel("IMSI and slot")
    if not shown:
        for axis in axes:
            nothing(axis)
    part = sum(sum(c.up.values()) + sum(c.down.values()) for c in shown) * 100 / octets if octets else 100
    return finished(
        figure, f"Charged octets of the {len(shown)} greatest of {count:,} subscribers ({part:.0f} %): {name}"
    )


def policing(base: sqlite3.Connection, bars: Bars, name: str) -> Figure:
    """Who is policed, and how long held packets wait."""
    figure = Figure(figsize=(10, 4.6))
    shares, wait = figure.subplots(1, 2)
    rows = sums.policed_shares(base, bars, MOST_MARKS)
    seconds = (bars.high - bars.low) / 1e6
    word, size = rate_unit(max((row[3] * 8 / seconds for row in rows), default=0))
    for way, gbr, colour, mark in (
        ("down", 0, "#0072B2", "o"),
        ("up", 0, "#E69F00", "^"),
        ("down", 1, "#009E73", "s"),
        ("up", 1, "#CC79A7", "D"),
    ):
        mine = [
            (slot, tried * 8 / seconds / size, 100 * policed / tried)
            for slot, found, qci, tried, policed in rows
            if found == way and qci == gbr and tried
        ]
        if mine:
            shares.scatter(
                [row[1] for row in mine],
                [row[2] for row in mine],
                s=28,
                color=colour,
                marker=mark,
                alpha=0.8,
                linewidths=0,
                clip_on=False,
                label=f"{way}link, " + ("own rate (QCI 1 to 4)" if gbr else "AMBR"),
            )
        for slot, rate, share in sorted(mine, key=lambda row: -row[2])[:3]:
            if share >= 1:
                shares.annotate(f"slot {slot}", (rate, share), xytext=(5, 4), textcoords="offset points", fontsize=8)
    shares.set_xlabel(f"offered, {word} (mean of {width_of(bars.high - bars.low)})")
    shares.set_ylabel("octets that were policed, %")
    shares.set_xlim(left=0)
    shares.set_ylim(bottom=0)
    titled(shares, "Policed share by subscriber", False)
    if rows:
        shares.legend(fontsize=8)
    else:
        nothing(shares)
    step, counts = sums.waits(base, bars, 40)
    name_of_unit, unit = time_unit(step * 40)
    if counts:
        wait.bar(
            [number * step / unit for number, _ in counts],
            [count for _, count in counts],
            width=step / unit,
            align="edge",
            color=COLOUR[SENT],
            linewidth=0,
        )
    else:
        nothing(wait)
    wait.set_xlabel(f"from being held to their fate, {name_of_unit} (bars of {width_of(step)})")
    wait.set_ylabel(f"packets in {width_of(step)}")
    titled(wait, f"How long held packets waited ({sum(count for _, count in counts):,})", False)
    return finished(figure, f"Policing and holding: {name}")


def bearer_panel(axis: Axes, base: sqlite3.Connection, slot: int, bars: Bars, unit: int) -> None:
    """The bearers of a subscriber, coloured by eNodeB, with idle times and moves."""
    lives = sums.bearers(base, slot, bars)
    colours: dict[str, str] = {}
    idle = False
    for row, (life, _, _) in enumerate(lives):
        for stretch in sums.stretches(base, slot, life, bars):
            place = {"left": stretch.begin / unit, "width": (stretch.end - stretch.begin) / unit, "height": 0.62}
            if stretch.enodeb is None:
                idle = True
                axis.barh(row, color="white", edgecolor="#888888", hatch="////", linewidth=0.6, **place)
            else:
                colour = colours.setdefault(stretch.enodeb, ENODEBS[len(colours) % len(ENODEBS)])
                axis.barh(row, color=colour, edgecolor="white", linewidth=0.6, **place)
    keys = [Patch(color=colour, label=enodeb) for enodeb, colour in list(colours.items())[:6]]
    if idle:
        keys.append(Patch(facecolor="white", edgecolor="#888888", hatch="////", label="no eNodeB"))
    moments = sums.moves(base, slot, bars)
    for moment in moments[:50]:
        axis.axvline(moment / unit, color="black", linestyle=":", linewidth=1.2)
    if moments:
        keys.append(Line2D([], [], color="black", linestyle=":", label="move to another slice"))
    if keys:
        small_legend(axis, 0.96, handles=keys, ncol=8, handlelength=1.4)
    axis.set_yticks(range(len(lives)), [f"life {life}: EBI {ebi}, QCI {qci}" for life, ebi, qci in lives])
    axis.set_ylim(max(len(lives), 1) - 0.4, -0.6)
    axis.grid(axis="y", visible=False)
    titled(axis, "Bearers, by eNodeB", False)
    if not lives:
        nothing(axis)


def subscriber(base: sqlite3.Connection, slot: int, bars: Bars, name: str) -> Figure:
    """One subscriber: its bearers, both ways against the AMBR, and the packets that wait."""
    imsi = (base.execute("SELECT imsi FROM subscriber WHERE slot = ?", (slot,)).fetchone() or ("?",))[0]
    rows = len(sums.bearers(base, slot, bars))
    figure = Figure(figsize=(10, 8.2 + 0.25 * min(rows, 12)))
    bearers, down, up, wait = figure.subplots(
        4, 1, sharex=True, gridspec_kw={"height_ratios": [0.8 + 0.4 * rows, 2.2, 2.2, 1.3]}
    )
    unit = time_axis(wait, bars)
    bearer_panel(bearers, base, slot, bars, unit)
    found = sums.outcomes(base, bars, slot)
    for axis, way, title in ((down, "down", "Downlink"), (up, "up", "Uplink")):
        size, top = rate_panel(axis, bars, rates_of(found, way, bars), unit)
        steps = [(moment / unit, kbps * 1e3 / size) for moment, kbps in sums.ambr(base, slot, way, bars)]
        lowest = min((rate for _, rate in steps), default=0)
        if top and steps and lowest <= 3 * top:  # else the bars would be flat below it, and its height is told
            axis.step(*zip(*steps), where="post", color="black", linewidth=1.2, label="AMBR (for QCI 5 and above)")
            axis.set_ylim(0, max(top, min(max(rate for _, rate in steps), 3 * top)) * 1.08)
        elif top and steps:
            title += f" (AMBR above, from {lowest:g} {rate_unit(size)[0] if size == 1e6 else 'kbit/s'})"
        titled(axis, title)
    levels = [(moment / unit, level) for moment, level in sums.waiting(base, slot, bars)]
    if any(level for _, level in levels):
        wait.fill_between(*zip(*levels), step="post", color=COLOUR[SENT], linewidth=0)
    else:
        nothing(wait)
    wait.set_ylim(0, HELD_AT_MOST + 1)
    wait.set_yticks(range(0, HELD_AT_MOST + 1, 4))
    wait.set_ylabel("packets")
    titled(wait, f"Packets that wait for an eNodeB (at most {HELD_AT_MOST})", False)
    return finished(figure, f"Subscriber {imsi} (slot {slot}): {name}")
