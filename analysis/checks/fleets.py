"""A fleet of 200 traces, of which some are wrong, cut, missing, refused, and one kills its worker. Its rows stay the
same where workers and programs are killed or stopped at any of their moments, the driver is killed and begun again, and
where a scheduler of a real cluster is killed; nothing is open but what was asked for, and nobody without a certificate
gets in. A fleet is taken to hang where no row comes for much longer than the undisturbed one took for all."""
import contextlib
import hashlib
import os
import pathlib
import pty
import re
import shutil
import signal
import socket
import sqlite3
import ssl
import subprocess
import sys
import time
from typing import Callable

from .harness import (
    ANALYSIS,
    Check,
    HANG,
    PEPC,
    SAFE,
    children_of,
    is_there,
    nothing_left,
    parent_of,
    pepc,
    small_files,
    words_of,
)

TRACES = 200
WORKER = "fleet_worker"
PATIENCE = 5  # seconds with a stopped worker or program, at least
WRONG, CUT, CHANGED, MISSING, REFUSED, NO_ENTRY, NO_REPORT, KILLER = 3, 17, 23, 38, 29, 33, 37, 11
# Of some traces, at which step something is done once, and what
ACTS = {
    41: ("solo", "stop program"),
    42: ("audit", "stop program"),
    43: ("balance", "stop program"),
    44: ("solo", "stop worker"),
    45: ("audit", "stop worker"),
    46: ("balance", "stop worker"),
    47: ("solo", "kill worker"),
    48: ("audit", "kill worker"),
    49: ("balance", "kill worker"),
    51: ("solo", "stop worker after 0"),
    52: ("audit", "stop worker after 0"),
    53: ("balance", "stop worker after 0"),
}
# The same at the last step's end, while the worker tells what came of the trace, and when it has told
ENDS = {number: ("audit", f"stop worker after {200 * (number - 61)}") for number in range(61, 70)}
# A real cluster begins no worker in place of one that is stopped
REAL = [("audit", "stop program"), ("solo", "kill worker"), ("audit", "stop worker after 0")]


def name_of(number: int) -> str:
    """A trace's name in OUT."""
    return f"day{number % 3}/gateway-{number:03}"


def make_list(room: pathlib.Path) -> pathlib.Path:
    """The traces, and their list: octets or SHA-256, and reports of some."""
    lines = []
    texts = [pepc(["make", "--seed", str(seed), "--subs", "4", "--lines", "60"]) for seed in range(20)]
    reports = [pepc(["solo"], text) for text in texts]
    for number in range(TRACES):
        trace = room / f"{name_of(number)}.trace"
        trace.parent.mkdir(parents=True, exist_ok=True)
        text = texts[number % 20]
        octets, report = len(text), None
        if number == WRONG:
            wrong = re.sub(
                rb"^(P \d+ \d+ \d+ \d+ up \d+ [0-9a-f]+)..\n", rb"\g<1>ff\n", reports[number % 20], 1, re.M
            )
            report = re.sub(
                rb"^(O 0 0 5 9 \d+) (\d+)", lambda told: b"%s %d" % (told[1], int(told[2]) + 1), wrong, 1, re.M
            )
        elif number == CUT:
            text = text[:-100]
        elif number == CHANGED:
            text = text.replace(b"S1U", b"SGI", 1)
        elif number == REFUSED:
            text += b"0 FENCE\n"
            octets = len(text)
        elif number == NO_ENTRY:
            report = reports[number % 20] + b"x\n"
        elif number == KILLER:
            text = b"0 FENCE\n" * 7
            octets = len(text)
        elif number % 10 == 0:
            report = reports[number % 20]
        if number != MISSING:
            trace.write_bytes(text)
        expected = (
            hashlib.sha256(texts[number % 20]).hexdigest()
            if number == CHANGED or number % 7 == 0 and number not in (REFUSED, KILLER)
            else octets
        )
        if report is not None:
            trace.with_suffix(".report").write_bytes(report)
        if report is not None or number == NO_REPORT:
            lines.append(f"{trace.relative_to(room)}\t{expected}\t{trace.with_suffix('.report').relative_to(room)}")
        else:
            lines.append(f"{trace.relative_to(room)}\t{expected}")
    (room / "list").write_text("\n".join(lines) + "\n")
    return room / "list"


def make_killer(room: pathlib.Path) -> pathlib.Path:
    """A program that is pepc, but kills its worker at a trace that begins with two fences; and does what a file of
    acts/ says of its trace and step, once."""
    program = room / "killer"
    program.write_text(
        f"""#!/bin/sh
input={room}/input.$$
cat >"$input"
[ "$(head -c 16 "$input")" != "0 FENCE
0 FENCE" ] || kill -9 $PPID
name=$(readlink /proc/$$/fd/1)
name=${{name##*/}}
act={room}/acts/${{name%%.*}}.$1
if read -r what whom when number <"$act" && rm "$act"; then
    case $what.$whom.$when in
    stop.program.) kill -STOP $$ ;;
    stop.worker.) kill -STOP $PPID ;;
    kill.worker.) kill -KILL $PPID ;;
    stop.worker.after)
        worker=$PPID
        {{
            while kill -0 $$; do :; done
            while [ "$number" -gt 0 ]; do number=$((number - 1)); done
            kill -STOP "$worker"
        }} </dev/null >/dev/null 2>&1 &
        ;;
    esac
fi 2>/dev/null
exec <"$input"
rm "$input"
exec {PEPC} "$@"
"""
    )
    program.chmod(0o755)
    return program


def give_acts(room: pathlib.Path, acts: dict[int, tuple[str, str]]) -> None:
    """Says what is to be done."""
    (room / "acts").mkdir(exist_ok=True)
    for number, (step, act) in acts.items():
        (room / "acts" / f"{name_of(number).split('/')[1]}.{step}").write_text(f"{act}\n")


def last_of(room: pathlib.Path, out: pathlib.Path) -> list[int]:
    """Faultless traces of a fleet that aren't done, those first that come last."""
    faulty = {WRONG, CUT, CHANGED, MISSING, REFUSED, NO_ENTRY, NO_REPORT, KILLER}
    done = ended_of(out)
    found = [number for number in range(TRACES) if number % 10 and number not in faulty and name_of(number) not in done]
    return sorted(found, key=lambda number: ((room / f"{name_of(number)}.trace").stat().st_size, -number))


def acts_done(check: Check, what: str, room: pathlib.Path) -> None:
    """All of it was done."""
    check.same(f"{what}: acts left", sorted(path.name for path in (room / "acts").iterdir()), [])


def rows_in(out: pathlib.Path) -> sqlite3.Connection:
    """The rows of a fleet, to read."""
    return sqlite3.connect(f"file:{out}/fleet.sqlite?mode=ro", uri=True)


class Driver:
    """A fleet that runs."""

    # seconds without a row that are a hang, and the patience with a silent worker: the undisturbed fleet says more
    quiet, patience = 120.0, PATIENCE

    def __init__(self, room: pathlib.Path, out: str, *words, listed: str = "list"):
        self.out = room / out
        self.said = room / f"{out}.said"
        with open(self.said, "ab") as said:
            self.process = subprocess.Popen(
                [ANALYSIS / "fleet", room / listed, self.out, "--program", room / "killer", *map(str, words)],
                stdin=subprocess.DEVNULL,
                stdout=said,
                stderr=said,
                env=SAFE,
            )

    def rows(self) -> int:
        """How many traces have their rows."""
        try:
            with contextlib.closing(rows_in(self.out)) as base:
                return base.execute("SELECT count(*) FROM trace").fetchone()[0]
        except sqlite3.Error:
            return 0

    def watch(self, enough: Callable[[], bool]) -> bool:
        """Waits until it has ended or something is so. False where it hangs."""
        rows, came = -1, time.monotonic()
        while self.process.poll() is None and not enough():
            if (found := self.rows()) != rows:
                rows, came = found, time.monotonic()
            elif time.monotonic() - came > self.quiet:
                return False
            time.sleep(0.05)
        return True

    def wait_for(self, rows: int) -> bool:
        """Waits until so many traces are done; it goes on then."""
        return self.watch(lambda: self.rows() >= rows) and self.process.poll() is None

    def children(self, word: str) -> list[int]:
        """Processes with a word on their command line: workers, or programs of workers."""
        return [process for process in children_of(self.process.pid) if word in words_of(process)]

    def workers(self) -> list[int]:
        """Its worker processes. What a worker has just forked has its command line too, and isn't one."""
        return [process for process in self.children(WORKER) if parent_of(process) == self.process.pid]

    def signal_one(self, find: Callable[[], list[int]], number: int) -> None:
        """Sends a signal to the first process of a kind that is found."""
        found: list[int] = []

        def sent() -> bool:
            found.extend(find())
            return bool(found)

        if self.watch(sent) and found:
            try:
                os.kill(found[0], number)
            except OSError:
                pass  # it has ended

    def end(self) -> int:
        """Its status."""
        if self.watch(lambda: False):
            return self.process.wait()
        self.process.kill()
        self.process.wait()
        return -1


def all_gone(check: Check, what: str, processes: list[int]) -> None:
    """None of these processes is left."""
    end = time.monotonic() + HANG / 10
    while any(map(is_there, processes)) and time.monotonic() < end:
        time.sleep(0.05)
    check.same(f"{what}: processes", [words_of(process) for process in processes if is_there(process)], [])


def rows_of(out: pathlib.Path) -> list[tuple]:
    """The rows, but for times, memory and attempts."""
    with contextlib.closing(rows_in(out)) as base:
        return base.execute(
            "SELECT name, octets, lines, step, step.status, said FROM trace JOIN step USING (name) ORDER BY 1, 4"
        ).fetchall()


def outputs_of(out: pathlib.Path) -> dict[str, str]:
    """What stands in the files of the traces, but for the tables, which name no time but may be laid out otherwise."""
    found = {}
    for path in sorted(out.rglob("gateway-*")):
        if path.suffix == ".sqlite":
            with contextlib.closing(sqlite3.connect(path)) as base:
                found[str(path.relative_to(out))] = hashlib.sha256("\n".join(base.iterdump()).encode()).hexdigest()
        else:
            found[str(path.relative_to(out))] = hashlib.sha256(path.read_bytes()).hexdigest()
    return found


def attempts_of(out: pathlib.Path) -> dict[str, int]:
    """Of the traces that were tried more than once, how often."""
    with contextlib.closing(rows_in(out)) as base:
        return dict(base.execute("SELECT name, attempts FROM trace WHERE attempts > 1"))


def ended_of(out: pathlib.Path) -> dict[str, int]:
    """When the rows of each trace were written."""
    with contextlib.closing(rows_in(out)) as base:
        return dict(base.execute("SELECT name, ended FROM trace"))


def wanted_rows(check: Check, rows: list[tuple]) -> None:
    """What each faulty trace must have, and that all others are well."""
    found: dict[str, list[tuple]] = {}
    for name, _, _, step, status, said in rows:
        found.setdefault(name, []).append((step, status, said))
    if not check.same("fleet: traces", len(found), TRACES):
        return
    well = [("audit", "0", ""), ("balance", "0", ""), ("solo", "0", ""), ("tables", "0", "")]
    given = [row for row in well if row[0] != "solo"]
    wrong = found.pop(name_of(WRONG))
    check.same(
        "fleet: a wrong report",
        [row[:2] for row in wrong],
        [("audit", "9"), ("balance", "0"), ("tables", "9"), ("why", "9")],
    )
    check.holds(
        f"fleet: where it is wrong: {wrong}",
        re.match(r"at (\d+) slot \d: P \1 .* up .*; due P \1 .* up", wrong[3][2])
        and wrong[0][2] == "pepc: report refuted: no 4"
        and "slot 0 life 0: charged less forwarded is up +1, down +0" in wrong[2][2],
    )
    for number, step, status in (
        (CUT, "find", "cut"),
        (CHANGED, "find", "changed"),
        (MISSING, "find", "missing"),
        (NO_REPORT, "find", "missing"),
        (KILLER, "run", "lost"),
    ):
        check.same(f"fleet: trace {number}", [row[:2] for row in found.pop(name_of(number))], [(step, status)])
    refused = found.pop(name_of(REFUSED))
    check.same(
        "fleet: a trace with a bad line",
        refused,
        [
            ("audit", "0", ""),
            ("balance", "6", "pepc: bad line"),
            ("solo", "6", "pepc: bad line"),
            ("tables", "0", ""),
        ],
    )
    no_entry = found.pop(name_of(NO_ENTRY))
    check.same(
        "fleet: a report with a line that is no entry",
        [row[:2] for row in no_entry],
        [("audit", "9"), ("balance", "12"), ("tables", "12"), ("why", "9")],
    )
    check.same("fleet: all others", {name: told for name, told in found.items() if told not in (well, given)}, {})


def listeners_of(process: int) -> list[tuple[str, int]]:
    """Address and port of each TCP listener of a process and those that it started."""
    inodes = set()
    for mine in [process, *children_of(process)]:
        try:
            for handle in pathlib.Path(f"/proc/{mine}/fd").iterdir():
                target = os.readlink(handle)
                if target.startswith("socket:["):
                    inodes.add(target[8:-1])
        except OSError:
            pass
    found = []
    for table in ("tcp", "tcp6"):
        for line in pathlib.Path(f"/proc/net/{table}").read_text().splitlines()[1:]:
            fields = line.split()
            if fields[3] == "0A" and fields[9] in inodes:
                address, port = fields[1].split(":")
                octets = bytes.fromhex(address)
                words = [octets[at : at + 4][::-1] for at in range(0, len(octets), 4)]
                family = socket.AF_INET if len(octets) == 4 else socket.AF_INET6
                found.append((socket.inet_ntop(family, b"".join(words)), int(port, 16)))
    return sorted(set(found))


def answer_of(port: int, context: ssl.SSLContext | None) -> str:
    """What a listener answers to a request of HTTP, plainly or by TLS: its first line, or why it talks to nobody."""
    try:
        with socket.create_connection(("127.0.0.1", port), HANG / 10) as plain:
            talk = context.wrap_socket(plain) if context else plain
            talk.sendall(b"GET /info/main/workers.html HTTP/1.0\r\n\r\n")
            return talk.recv(4096).split(b"\r\n")[0].decode("latin-1") or "nothing"
    except ssl.SSLError as why:
        return str(why.reason)
    except OSError as why:
        return type(why).__name__


def look_at_listeners(check: Check, what: str, processes: list[int], foreign: pathlib.Path) -> None:
    """Loopback alone; HTTP serves nothing; without a certificate, and with a foreign one, nobody gets in."""
    without = ssl.create_default_context()
    without.check_hostname, without.verify_mode = False, ssl.CERT_NONE
    other = ssl.create_default_context()
    other.check_hostname, other.verify_mode = False, ssl.CERT_NONE
    other.load_cert_chain(foreign / "cert.pem", foreign / "key.pem")
    found = sorted({listener for process in processes for listener in listeners_of(process)})
    check.holds(f"{what}: it has listeners: {found}", len(found) >= 3)
    check.same(f"{what}: addresses of listeners", sorted({address for address, _ in found}), ["127.0.0.1"])
    guarded = 0
    for _, port in found:
        answer = answer_of(port, None)
        if answer.startswith("HTTP"):
            check.same(f"{what}: port {port} to HTTP", answer, "HTTP/1.1 404 Not Found")
            continue
        guarded += 1
        # an authority of the same name is told by its signature
        for name, context, wanted in (
            ("no", without, ["TLSV13_ALERT_CERTIFICATE_REQUIRED"]),
            ("a foreign", other, ["TLSV1_ALERT_UNKNOWN_CA", "TLSV1_ALERT_DECRYPT_ERROR"]),
        ):
            told = [answer_of(port, context)]
            while told[-1] not in wanted and len(told) < 4:  # a connection may be reset before the reason is read
                told.append(answer_of(port, context))
            check.holds(f"{what}: port {port} to TLS with {name} certificate: {told[-1]}", told[-1] in wanted)
    check.holds(f"{what}: {guarded} listeners ask for a certificate", guarded >= 2)


def undisturbed(check: Check, room: pathlib.Path) -> list[tuple]:
    """The undisturbed run, whose rows all others must have; nothing is done twice, and nothing listens."""
    begun = time.monotonic()
    driver = Driver(room, "calm", "--workers", 3)
    driver.wait_for(TRACES // 20)
    check.same("fleet: listeners", listeners_of(driver.process.pid), [])
    check.same("fleet: status", driver.end(), 1)
    took = time.monotonic() - begun
    Driver.patience = max(PATIENCE, int(took / 4))
    Driver.quiet = 30 + 2 * took + 4 * Driver.patience
    rows = rows_of(driver.out)
    wanted_rows(check, rows)
    nothing_left(check, "fleet", driver.out)
    tried = attempts_of(driver.out)
    check.same("fleet: attempts at the trace that kills its worker", tried.get(name_of(KILLER)), 3)
    said = driver.said.read_text()
    check.holds(
        f"fleet: lines of progress: {said[:200]}",
        re.search(
            rf"{TRACES}/{TRACES} done, 7 failed, 1 lost, [0-9.]+ traces/s, [0-9,]+ lines/s, \d workers, 0 s left",
            said,
        ),
    )
    ended = ended_of(driver.out)
    again = Driver(room, "calm", "--workers", 3)
    check.same("fleet again: status", again.end(), 1)
    changed = {name for name, moment in ended_of(driver.out).items() if ended[name] != moment}
    check.same("fleet again: only what was lost is done again", changed - {name_of(KILLER)}, set())
    check.same("fleet again: rows", rows_of(driver.out), rows)
    return rows


def disturbed(check: Check, room: pathlib.Path, wanted: list[tuple]) -> None:
    """Workers stopped and killed at their begin and their work, programs stopped; the driver killed beside a stopped
    worker, and begun again."""
    give_acts(room, ACTS)
    driver = Driver(room, "rough", "--workers", 3, "--patience", Driver.patience)
    driver.signal_one(driver.workers, signal.SIGSTOP)
    if check.holds("rough fleet: it goes on beside a worker that never began", driver.wait_for(TRACES // 10)):
        driver.signal_one(driver.workers, signal.SIGKILL)
        check.holds("rough fleet: it goes on without a worker", driver.wait_for(TRACES * 3 // 10))
        driver.signal_one(driver.workers, signal.SIGSTOP)
    below = children_of(driver.process.pid)
    driver.process.kill()
    driver.process.wait()
    all_gone(check, "rough fleet without its driver", below)
    done = driver.rows()
    check.holds(f"rough fleet: {done} traces stand when the driver was killed", TRACES * 3 // 10 <= done < TRACES)
    again = Driver(room, "rough", "--workers", 3, "--patience", Driver.patience)
    again.signal_one(again.workers, signal.SIGKILL)
    again.signal_one(lambda: again.children("/analysis/tables"), signal.SIGSTOP)
    ends_well(check, "rough fleet", room, again, wanted)
    check.same("rough fleet: files", outputs_of(again.out), outputs_of(room / "calm"))


def disturbed_ends(check: Check, room: pathlib.Path, wanted: list[tuple]) -> None:
    """Workers stopped about when they tell what came of a trace."""
    give_acts(room, ENDS)
    driver = Driver(room, "ends", "--workers", 3, "--patience", Driver.patience, "--steps", "solo,audit,why")
    ends_well(check, "fleet with disturbed ends", room, driver, without_tables(wanted))


def without_tables(rows: list[tuple]) -> list[tuple]:
    """The rows of a fleet with the steps solo, audit and why."""
    return [row for row in rows if row[3] not in ("balance", "tables")]


def ends_well(check: Check, what: str, room: pathlib.Path, driver: Driver, wanted: list[tuple]) -> None:
    """A disturbed fleet ends with the rows of the undisturbed one, and leaves nothing."""
    below: set[int] = set()

    def seen() -> bool:
        below.update(children_of(driver.process.pid))
        return False

    driver.watch(seen)
    check.same(f"{what}: status", driver.end(), 1)
    all_gone(check, what, sorted(below))
    check.same(f"{what}: rows", rows_of(driver.out), wanted)
    nothing_left(check, what, driver.out)
    acts_done(check, what, room)


def along(check: Check, room: pathlib.Path, wanted: list[tuple]) -> None:
    """Traces that are larger than the memory are audited epoch by epoch, and have the rows of the undisturbed fleet.
    What makes their pieces may be stopped; where it makes none, that is told."""
    made = pepc(["make", "--seed", "5", "--subs", "4", "--lines", "60"]).splitlines(keepends=True)
    many, told = b"", b""
    for number, line in enumerate(made, 1):
        many += line
        if number % 10 == 0:
            many += line.split(b" ")[0] + b" FENCE\n"
            told += b"lawful %d %d\n" % (number // 10, number + number // 10)
    lines = len(many.splitlines())
    if not many.endswith(b" FENCE\n"):
        told += b"lawful %d %d\n" % (told.count(b"\n") + 1, lines)
    for name, text in (("many", many), ("marked", made[0] + b"TRACE\n")):
        (room / f"{name}.trace").write_bytes(text)
    names = {name_of(number) for number in (1, 10, WRONG, REFUSED, NO_ENTRY)}
    rows = [line for line in (room / "list").read_text().splitlines() if line.split(".trace\t")[0] in names]
    rows += [f"{name}.trace\t{(room / f'{name}.trace').stat().st_size}" for name in ("many", "marked")]
    (room / "few").write_text("\n".join(rows) + "\n")
    words = ["--workers", 2, "--memory", 1, "--patience", Driver.patience, "--steps", "solo,audit,why"]
    driver = Driver(room, "along", *words, listed="few")
    driver.signal_one(lambda: driver.children("examples/along"), signal.SIGSTOP)
    check.same("fleet in pieces: status", driver.end(), 1)
    found = rows_of(driver.out)
    usual = [row for row in found if row[0] in names]
    check.same("fleet in pieces: rows", usual, [row for row in without_tables(wanted) if row[0] in names])
    check.same("fleet in pieces: what an audit says", (driver.out / "many.audit").read_bytes(), told + b"yes\n")
    check.same("fleet in pieces: lines", {row[2] for row in found if row[0] == "many"}, {lines})
    check.same(
        "a trace of which there are no pieces",
        [row[3:] for row in found if row[0] == "marked"],
        [
            ("audit", "fault", f"examples/along: {room}/marked.trace: line 2 is TRACE"),
            ("solo", "6", "pepc: bad line"),
        ],
    )
    nothing_left(check, "fleet in pieces", driver.out)


def interrupted(check: Check, room: pathlib.Path) -> None:
    """A signal beside a stopped worker: status 130, a line, and nobody left; a second fleet in the same OUT is
    refused."""
    driver = Driver(room, "stopped", "--workers", 2)
    if check.holds("stopped fleet: it runs", driver.wait_for(5)):
        check.command(
            "a second fleet in OUT",
            ["fleet", room / "list", driver.out, "--program", room / "killer"],
            2,
            f"fleet: {driver.out}: another fleet is at work there",
            env=SAFE,
        )
        below = children_of(driver.process.pid)
        driver.signal_one(driver.workers, signal.SIGSTOP)
        driver.process.send_signal(signal.SIGINT)
        check.same("stopped fleet: status", driver.end(), 130)
        all_gone(check, "stopped fleet", below)
        check.holds("stopped fleet: its line", driver.said.read_text().endswith("fleet: stopped\n"))


class Cluster:
    """A scheduler and two workers, as an operator starts them; the workers are registered."""

    def __init__(self, room: pathlib.Path, tls: pathlib.Path):
        with socket.socket() as free:
            free.bind(("127.0.0.1", 0))
            self.port = free.getsockname()[1]
        shared = [
            f"--tls-ca-file={tls}/ca.pem",
            f"--tls-cert={tls}/cert.pem",
            f"--tls-key={tls}/key.pem",
            "--dashboard-address=127.0.0.1:0",
        ]
        env = SAFE | {f"DASK_DISTRIBUTED__{part}__HTTP__ROUTES": "[]" for part in ("SCHEDULER", "WORKER", "NANNY")}
        env |= {
            "DASK_DISTRIBUTED__SCHEDULER__ALLOWED_FAILURES": "0",
            "DASK_DISTRIBUTED__SCHEDULER__WORK_STEALING": "False",
            "DASK_DISTRIBUTED__SCHEDULER__WORKER_TTL": f"{Driver.patience}s",
            "DASK_DISTRIBUTED__COMM__REQUIRE_ENCRYPTION": "True",
        }
        self.processes = []
        self.said = open(room / f"cluster-{self.port}.said", "w+b")
        self.start(
            ["/usr/bin/dask-scheduler", "--host=127.0.0.1", f"--port={self.port}", "--protocol=tls", *shared],
            room,
            env,
        )
        for number in range(2):
            self.start(
                [
                    "/usr/bin/dask-worker",
                    f"tls://127.0.0.1:{self.port}",
                    "--host=127.0.0.1",
                    "--nthreads=1",
                    "--memory-limit=0",
                    f"--local-directory={room}/worker{number}",
                    f"--death-timeout={HANG}",
                    *shared,
                ],
                room,
                env,
            )
        end = time.monotonic() + HANG
        while pathlib.Path(self.said.name).read_bytes().count(b"Registered to") < 2 and time.monotonic() < end:
            time.sleep(0.1)

    def start(self, words: list[str], room: pathlib.Path, env: dict) -> None:
        """Starts one program of the cluster."""
        self.processes.append(
            subprocess.Popen(words, cwd=room, env=env, stdin=subprocess.DEVNULL, stdout=self.said, stderr=self.said)
        )

    def end(self) -> None:
        """Ends all of it."""
        for process in self.processes:
            for below in [process.pid, *children_of(process.pid)]:
                try:
                    os.kill(below, signal.SIGKILL)
                except OSError:
                    pass
            process.wait()
        self.said.close()


def real(check: Check, room: pathlib.Path, wanted: list[tuple], tls: pathlib.Path, foreign: pathlib.Path) -> None:
    """A real cluster: its scheduler killed, and begun again; a worker and programs disturbed."""
    words = ["--steps", "solo,audit,why", "--patience", Driver.patience, "--tls", tls, "--scheduler"]
    cluster = Cluster(room, tls)
    try:
        driver = Driver(room, "real", *words, f"tls://127.0.0.1:{cluster.port}")
        if check.holds("real cluster: it runs", driver.wait_for(TRACES // 10)):
            cluster.processes[0].kill()
            check.same("real cluster: status without its scheduler", driver.end(), 3)
            check.holds(
                "real cluster: its line",
                driver.said.read_text().endswith(
                    "fleet: the scheduler is lost; the same command goes on from here\n"
                ),
            )
        done = driver.rows()
        check.holds(f"real cluster: {done} traces stand", TRACES // 10 <= done < TRACES)
    finally:
        cluster.end()
    cluster = Cluster(room, tls)
    try:
        look_at_listeners(check, "real cluster", [process.pid for process in cluster.processes], foreign)
        check.command(
            "a fleet with a foreign certificate",
            [
                "fleet",
                room / "list",
                room / "foreign-out",
                "--program",
                room / "killer",
                "--tls",
                foreign,
                "--scheduler",
                f"tls://127.0.0.1:{cluster.port}",
            ],
            3,
            env=SAFE,
        )
        give_acts(room, dict(zip(last_of(room, driver.out), REAL)))
        again = Driver(room, "real", *words, f"tls://127.0.0.1:{cluster.port}")
        ends_well(check, "real cluster", room, again, without_tables(wanted))
    finally:
        cluster.end()


def words(check: Check, room: pathlib.Path, tls: pathlib.Path) -> None:
    """Faulty lists and words: a line with file and number, or the fault, and a status."""
    lines = {
        "an empty list": ("", 6, "line 1: the list is empty"),
        "a path twice": ("a.trace\t5\nb.trace\t5\na.trace\t5\n", 6, "line 3: a.trace: a path twice"),
        "a path outside": ("../a.trace\t5\n", 6, f"line 1: a path outside {room}"),
        "a line without octets": (
            "a.trace\t5\nb.trace\n",
            6,
            "line 2: it isn't a path, octets or SHA-256, and maybe a " "report, with a tab between each two",
        ),
        "octets that are none": (
            "a.trace\tfive\n",
            6,
            "line 1: five: neither octets nor a SHA-256 of 64 hexadecimal digits",
        ),
    }
    for what, (text, status, said) in lines.items():
        (room / "bad").write_text(text)
        check.command(what, ["fleet", room / "bad", room / "o"], status, f"fleet: {room}/bad {said}", env=SAFE)
    good, out = room / "list", room / "calm"
    check.command(
        "a missing list", ["fleet", room / "none", out], 3, f"fleet: {room}/none: No such file or directory", env=SAFE
    )
    check.command("an OUT of another program", ["fleet", good, out, "--program", "/bin/true"], 2, env=SAFE)
    check.command("a program that isn't there", ["fleet", good, out, "--program", room / "none"], 3, env=SAFE)
    check.command(
        "a scheduler without TLS",
        ["fleet", good, room / "o", "--program", room / "killer", "--tls", tls, "--scheduler", "tcp://127.0.0.1:1"],
        2,
        env=SAFE,
    )
    check.command(
        "a scheduler without certificates",
        ["fleet", good, room / "o", "--scheduler", "tls://127.0.0.1:1"],
        2,
        env=SAFE,
    )
    check.command(
        "a scheduler that isn't there",
        ["fleet", good, room / "o", "--program", room / "killer", "--tls", tls, "--scheduler", "tls://127.0.0.1:1"],
        3,
        env=SAFE,
    )
    check.command(
        "a merge of no fleet", ["merge", room / "none"], 3, f"merge: {room}/none/fleet.sqlite: no such file"
    )
    on_full = ["fleet", good, room / "full", "--program", room / "killer"]
    check.command("a fleet where the disk is full", on_full, 4, env=SAFE, preexec_fn=small_files)
    check.command("a fleet where a file is", ["fleet", good, good], 4, env=SAFE)
    (room / "version").mkdir()
    shutil.copy(out / "fleet.sqlite", room / "version/fleet.sqlite")
    with contextlib.closing(sqlite3.connect(room / "version/fleet.sqlite")) as base:
        base.execute("UPDATE run SET version = 99")
        base.commit()
    check.command(
        "an OUT of another version",
        ["fleet", good, room / "version", "--program", room / "killer"],
        2,
        f"fleet: {room}/version/fleet.sqlite: of version 99, where this program has 1; give another OUT",
        env=SAFE,
    )


def on_a_terminal(check: Check, room: pathlib.Path) -> None:
    """A bar, on one line that is written over."""
    (room / "one").write_text(f"{name_of(1)}.trace\t{(room / f'{name_of(1)}.trace').stat().st_size}\n")
    ours, theirs = pty.openpty()
    driver = subprocess.Popen(
        [ANALYSIS / "fleet", room / "one", room / "bar", "--program", room / "killer", "--workers", "1"],
        stdin=subprocess.DEVNULL,
        stdout=subprocess.DEVNULL,
        stderr=theirs,
        env=SAFE,
    )
    os.close(theirs)
    told = b""
    try:
        while part := os.read(ours, 4096):
            told += part
    except OSError:
        pass  # the terminal is closed
    check.same("fleet on a terminal: status", driver.wait(), 0)
    last = told.decode().split("\r\x1b[K")[-1]
    check.holds(
        f"fleet on a terminal: its bar: {last!r}",
        re.match(r"\[#{24}\] 1/1 done, 0 failed, 0 lost, .* traces/s, .* lines/s, 1 workers, 0 s left", last),
    )


def memory(check: Check) -> None:
    """No more side by side than fit."""
    from pepc_analysis.fleet_cluster import Host
    from pepc_analysis.fleet_list import Listed
    from pepc_analysis.fleet_rows import Job
    from pepc_analysis.fleet_run import Fleet, Out, Plan, need_of

    job = Job(Listed("a", "a", "1", None), 100_000_000, None, "")
    need = need_of(job, ["audit"])
    check.holds(f"need of an audit of 100 MB: {need}", 300_000_000 < need < 600_000_000)
    check.same("its need in pieces", need_of(job, ["audit"], True), need)
    day = job._replace(octets=100_000_000_000)
    check.holds("need of a day's audit in pieces", need < need_of(day, ["audit"], True) < 1_000_000_000)
    check.same("need of what is read whole", need_of(day, ["audit", "balance"], True), need_of(day, ["balance"]))
    fleet = Fleet.__new__(Fleet)
    for steps, memory, wanted in (
        (["solo", "audit"], [2 * need, need], False),
        (["solo", "audit"], [need // 2, need - 1], True),
        (["solo", "balance"], [need // 2], False),
        (["audit"], [0], False),
        (["audit"], [0, need // 2], True),
    ):
        fleet.plan = Plan("", "", "", "", steps, [], "", 1, 1)
        hosts = {str(at): Host(1, octets) for at, octets in enumerate(memory)}
        check.same(f"{steps} of {memory} in pieces", fleet.along_of(job, hosts), wanted)
    fleet.out = {}
    hosts = {"one": Host(4, 2 * need), "two": Host(1, need // 2)}
    check.same("a trace goes where it fits", fleet.place_of(need, {"one": hosts["one"]}), "one")
    fleet.out = {key: Out(job, "one", need, 1, 0.0) for key in "ab"}
    check.same("a third one doesn't fit", fleet.place_of(need, {"one": hosts["one"]}), None)
    check.same("a trace that fits nowhere has a machine for itself", fleet.place_of(need, hosts), "two")
    fleet.out["c"] = Out(job, "two", need, 1, 0.0)
    check.same("and nothing beside it", fleet.place_of(1, {"two": hosts["two"]}), None)


def merged(check: Check, out: pathlib.Path, rows: list[tuple]) -> None:
    """The charges of all traces against those of their reports, and the picture."""
    from pepc_analysis import fleet_merge

    names = [name for name, *_, step, status, _ in rows if step == "tables" and status in ("0", "9")]
    wanted = [0, 0, 0]
    for name in names:
        report = out / f"{name}.report"
        if not report.exists():
            report = out.parent / f"{name}.report"
        for entry in report.read_bytes().splitlines():
            if entry[:2] in (b"R ", b"O "):
                words = entry.split(b" ")
                wanted = [wanted[0] + 1, wanted[1] + int(words[6]), wanted[2] + int(words[7])]
    told = check.command("merge", ["merge", out], 0, "")
    check.same("merge: its line", told, f"{len(names)} traces, {wanted[0]} charges\n")
    base = sqlite3.connect(out / "charges.sqlite")
    check.same(
        "merge: charges", list(base.execute("SELECT count(*), sum(up), sum(down) FROM charge").fetchone()), wanted
    )
    check.same(
        "merge: audits",
        dict(base.execute("SELECT audit, count(DISTINCT name) FROM charge GROUP BY audit")),
        {"yes": len(names) - 1, "no 4": 1},
    )
    figure = fleet_merge.picture(str(out / "charges.sqlite"))
    counts: dict[str, float] = {}
    for container in figure.axes[2].containers:
        counts[container.get_label()] = sum(bar.get_width() for bar in container.patches)
    found: dict[str, float] = {}
    for *_, step, status, _ in rows:
        kind = fleet_merge.kind_of(step, status)
        found[kind] = found.get(kind, 0) + 1
    check.same("merge: the picture's steps", counts, found)
    unit = {"kB": 1_000, "MB": 1_000_000}[figure.axes[0].get_xlabel().removeprefix("charged, ")]
    widths = [sum(container.patches[0].get_width() for container in figure.axes[0].containers) * unit]
    check.same(
        "merge: the picture's greatest trace",
        [round(width) for width in widths],
        [base.execute("SELECT sum(up + down) FROM charge GROUP BY name ORDER BY 1 DESC LIMIT 1").fetchone()[0]],
    )
    base.close()


def run(check: Check) -> None:
    room = check.room
    make_list(room)
    make_killer(room)
    for folder in ("tls", "foreign"):
        check.same(f"certificates {folder}", subprocess.run([ANALYSIS / "certificates", room / folder]).returncode, 0)
    begun = time.monotonic()

    def told(what: str) -> None:
        print(f"  {what}: {time.monotonic() - begun:.0f} s", file=sys.stdout, flush=True)

    rows = undisturbed(check, room)
    told("undisturbed")
    disturbed(check, room, rows)
    disturbed_ends(check, room, rows)
    told("disturbed")
    real(check, room, rows, room / "tls", room / "foreign")
    told("real cluster")
    along(check, room, rows)
    told("pieces")
    interrupted(check, room)
    on_a_terminal(check, room)
    words(check, room, room / "tls")
    memory(check)
    merged(check, room / "calm", rows)
    told("words and merge")
