"""Bad input of the commands for one trace: each a line and a status, and nothing left."""
import os
import signal
import sqlite3
import subprocess
import time

from pepc_analysis.faults import Fault
from pepc_analysis.making import make_tables

from .harness import ANALYSIS, Check, made, nothing_left, pepc, small_files

ATTACH = "0 ATTACH 001010000000001 198.51.100.7 00000a01 1000 1000\n"
PACKET = "450000140000000040fd00000a2d0002cb007109"
UP = f"10 S1U 30ff001400000011{PACKET}\n"
COMMAND, VERDICT, OPEN = "C 1 0 0 ok -\n", f"P 2 0 0 1 up 0 {PACKET}\n", "O 0 0 5 9 0 20 0 1 0\n"
BIG = "18446744073709551615"

# Trace, report, the status and the line on standard error (T and R are the files' names)
CASES = {
    "files that don't fit": (UP, COMMAND + OPEN, 12, "R line 1: a command's entry, where the line is no command"),
    "an entry of another line": (
        ATTACH + UP,
        COMMAND + VERDICT.replace("P 2", "P 3"),
        12,
        "R line 2: an entry of line 3 where one of line 2 was due",
    ),
    "an entry that is cut": (
        ATTACH + UP,
        (COMMAND + VERDICT)[:-9],
        12,
        "R line 2: no entry: it is cut, as no newline stands behind it",
    ),
    "a report that is cut behind an entry": (
        ATTACH + UP,
        COMMAND,
        9,
        "T line 2: no entry of R answers it\n" "tables: slot 0 life 0: a begin without charges",
    ),
    "a trace that is cut": (
        ATTACH,
        COMMAND + VERDICT + OPEN,
        12,
        "R line 2: an entry of line 2, which T doesn't have",
    ),
    "a number of 64 bits": (
        ATTACH + UP,
        COMMAND + VERDICT + OPEN.replace("20", BIG),
        12,
        f"R line 3: {BIG}: a number of more than 18 digits",
    ),
    "a count that no piece has": (
        ATTACH + UP,
        COMMAND + VERDICT + OPEN.replace("20", "9" * 18),
        12,
        "R line 3: a count above 1,000,000,000,000",
    ),
    "an entry twice": (
        ATTACH + UP,
        COMMAND + VERDICT + OPEN + OPEN,
        12,
        "R line 4: a second open counter of slot 0, life 0",
    ),
    "a packet's number twice": (
        ATTACH + UP + UP,
        COMMAND + VERDICT + VERDICT.replace("P 2", "P 3"),
        12,
        "R line 3: number 0 of slot 0, where 1 was due",
    ),
    "a fate of no packet": (
        ATTACH + UP,
        COMMAND + VERDICT + "H 0 7 0 gone 0\n" + OPEN,
        12,
        "R line 3: the fate of packet 7 of slot 0, which isn't held",
    ),
    "charges that aren't what was forwarded": (
        ATTACH + UP,
        COMMAND + VERDICT + OPEN.replace("20", "21"),
        9,
        "slot 0 life 0: charged less forwarded is up +1, down +0, packets up +0, down +0",
    ),
    "a moment that is none": (
        ATTACH + UP.replace("10", "x", 1),
        COMMAND + VERDICT + OPEN,
        6,
        "T line 2: its moment is no number below 2^50",
    ),
    "a moment that goes back": (
        ATTACH.replace("0", "11", 1) + UP,
        COMMAND + VERDICT + OPEN,
        6,
        "T line 2: its moment is above 2^50 - 1, or below that of the line before",
    ),
    "a line too long of the report": (
        ATTACH + UP,
        COMMAND + "P 2 0 0 1 up 0 " + "0" * 140_000 + "\n",
        7,
        "R line 2: more than 132,000 octets",
    ),
    "an answer for nobody": (
        ATTACH + "1 DROP 001010000000001 9\n",
        COMMAND + "C 2 0 1 ok -\n" + OPEN,
        12,
        "R line 2: `ok`, though the subscriber has no active bearer of EBI 9",
    ),
}


def run(check: Check) -> None:
    folder = check.room / "inputs"
    folder.mkdir()
    trace, report, out = folder / "T", folder / "R", folder / "o.sqlite"
    for name, (lines, entries, status, said) in CASES.items():
        trace.write_text(lines)
        report.write_text(entries)
        try:
            wrongs = make_tables(str(trace), str(report), str(out))
            ended, told = (9 if wrongs else 0), "\ntables: ".join(wrongs)
        except Fault as fault:
            ended, told = fault.status, str(fault)
        check.same(name, (ended, told.replace(f"{folder}/", "")), (status, said))
        check.same(f"{name}: a file where tables stand alone", out.exists(), ended in (0, 9))
        out.unlink(missing_ok=True)
    trace.write_text(ATTACH + UP)
    report.write_text(COMMAND + VERDICT + OPEN)
    check.command("tables", ["tables", trace, report, out], 0, "")
    check.command(
        "tables of a missing trace",
        ["tables", folder / "none", report, out],
        3,
        f"tables: {folder}/none: No such file or directory",
    )
    check.command("tables of a folder", ["tables", trace, folder, out], 3, f"tables: {folder}: Is a directory")
    check.command(
        "tables to nowhere",
        ["tables", trace, report, folder / "none/o.sqlite"],
        4,
        f"tables: {folder}/none/o.sqlite: its folder isn't there",
    )
    check.command("tables without words", ["tables"], 2)
    check.command(
        "tables of an audit that says something else", ["tables", trace, report, out, "--audit", "maybe"], 2
    )
    check.command("sheets where a file is", ["tables", trace, report, out, "--csv", trace], 4)
    nothing_left(check, "faulty words", folder)
    full_and_stopped(check, folder)
    plots(check, folder, out)
    for command in ("tables", "plots", "fleet", "merge"):
        check.holds(f"{command} --help", "usage: " in check.command(f"{command} --help", [command, "--help"], 0))


def full_and_stopped(check: Check, folder) -> None:
    """A disk that is full, by a limit of files' size; and a signal in the midst."""
    pair = made(check.room, "big", pepc(["make", "--seed", "5", "--subs", "200", "--lines", "30000"]))
    out = folder / "big.sqlite"

    check.command(
        "tables where the disk is full", ["tables", pair.trace, pair.report, out], 4, preexec_fn=small_files
    )
    check.command(
        "tables in a folder that isn't there",
        ["tables", pair.trace, pair.report, "/dev/shm/none/x", "--csv", folder],
        4,
    )
    # a trace that doesn't come to its end, so that the signal comes in the midst
    endless = check.room / "endless"
    os.mkfifo(endless)
    for number in (signal.SIGTERM, signal.SIGINT):
        running = subprocess.Popen([ANALYSIS / "tables", endless, pair.report, out], stderr=subprocess.PIPE, text=True)
        with open(endless, "wb") as trace:
            trace.write(pair.trace.read_bytes()[:1_000_000])
            trace.flush()
            while running.poll() is None and not list(folder.glob("big.sqlite.*")):
                time.sleep(0.005)
            running.send_signal(number)
            told = (running.wait(), running.stderr.read())
        check.same(f"tables stopped by signal {number}", told, (130, "tables: stopped\n"))
    check.holds("nothing of them is left", not list(folder.glob("big*")))


def plots(check: Check, folder, tables) -> None:
    """Bad input of plots."""
    from .harness import is_missing

    if is_missing("matplotlib"):
        return
    check.command(
        "plots of no tables",
        ["plots", folder / "T", folder / "p"],
        3,
        f"plots: {folder}/T: no tables: file is not a database",
    )
    check.command(
        "plots of a missing file",
        ["plots", folder / "none", folder / "p"],
        3,
        f"plots: {folder}/none: no tables: unable to open database file",
    )
    check.command(
        "plots of another's slot",
        ["plots", tables, folder / "p", "--slot", "7"],
        2,
        f"plots: {tables}: no subscriber has slot 7",
    )
    check.command(
        "plots that end before they begin",
        ["plots", tables, folder / "p", "--from", "3", "--to", "2"],
        2,
        "plots: --to 2 isn't behind --from 3",
    )
    check.command("plots into a file", ["plots", tables, folder / "T"], 4)
    base = sqlite3.connect(tables)
    base.execute("UPDATE run SET schema = 99")
    base.commit()
    base.close()
    check.command(
        "plots of another version",
        ["plots", tables, folder / "p"],
        12,
        f"plots: {tables}: tables of version 99, where this program has 1",
    )
    nothing_left(check, "plots", folder)
