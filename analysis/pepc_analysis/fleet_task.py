"""What a worker does for one trace: its steps, each a process of its own.

The module is sent to the workers by value, so that they need nothing of this project but Python; it takes and gives
plain values alone. Nothing that a trace, a report or a program does raises: it becomes the row of its step, and where a
program stood stopped the trace is to be done again."""
import hashlib
import os
import socket
import subprocess
import tempfile
import threading
import time

SAID = 400  # octets of a line that a row keeps
PIECE = 1 << 20
SAMPLED = 0.05  # seconds between two looks at a program's memory


def row(step, status, said="", seconds=0.0, memory=0):
    """The row of a step."""
    return {"step": step, "status": status, "said": said, "seconds": seconds, "memory": memory}


def free_memory():
    """Octets that programs may take on this host."""
    with open("/proc/meminfo") as told:
        return next(int(line.split()[1]) * 1024 for line in told if line.startswith("MemAvailable"))


def looked(pid, program):
    """Octets of memory that a process held at most so far, 0 where it isn't this program yet, or any more; and whether
    it is stopped."""
    try:
        with open(f"/proc/{pid}/cmdline", "rb") as told:
            words = told.read().split(b"\0")
        with open(f"/proc/{pid}/status") as told:
            status = dict(line.split(":", 1) for line in told)
    except OSError:
        return 0, False
    mine = words[0] != b"setpriv" and program.encode() in words
    return (
        int(status["VmHWM"].split()[0]) * 1024 if mine and "VmHWM" in status else 0,
        status["State"].split()[0] == "T",
    )


def line_of(octets):
    """The first line of what a program said."""
    return octets[:SAID].decode("utf-8", "replace").strip().split("\n")[0]


class Stopped(Exception):
    """A program that stood stopped for too long: nothing is known of its trace."""


def started(words, **files):
    """A program. pdeathsig: where the worker dies it dies too, and writes no more."""
    return subprocess.Popen(["setpriv", "--pdeathsig", "KILL", "--", *words], **files)


def ended_by(process, late=False):
    """How a program ended, in words."""
    status = process.returncode
    return str(status) if status >= 0 else "timeout" if late else f"signal {-status}"


class Watcher(threading.Thread):
    """Looks at a program's memory, and kills it where it takes too long, or where it or what makes its input stands
    stopped for too long."""

    def __init__(self, process, program, limit, patience):
        super().__init__(daemon=True)
        self.processes, self.program, self.limit, self.patience = [process], program, limit, patience
        self.memory, self.late, self.stopped = 0, False, False
        self.ended = threading.Event()

    def run(self):
        begun = went = time.monotonic()
        while not self.ended.wait(SAMPLED):
            now = time.monotonic()
            went = went if self.look() else now
            self.late, self.stopped = now - begun > self.limit, now - went > self.patience
            if self.late or self.stopped:
                for process in self.processes:
                    process.kill()
                return

    def look(self):
        """Looks at the program, and tells whether one is stopped."""
        seen = [looked(process.pid, self.program) for process in self.processes]
        self.memory = max(self.memory, seen[0][0])
        return any(stopped for _, stopped in seen)


class Feeder(threading.Thread):
    """Writes files, octets, and what other programs write into a program, a newline behind each file. Where there is a
    fault, the program is ended, as its input isn't whole."""

    def __init__(self, process, pieces, watcher):
        super().__init__(daemon=True)
        self.process, self.pieces, self.watcher = process, pieces, watcher
        self.lines, self.fault = 0, ""

    def run(self):
        try:
            with self.process.stdin as pipe:
                for piece in self.pieces:
                    self.feed(pipe, piece)
        except BrokenPipeError:
            pass  # the program ended before: its status tells
        except OSError as why:
            self.fail(str(why))
        self.watcher.look()

    def fail(self, why):
        """A fault."""
        self.fault = why
        self.process.kill()

    def feed(self, pipe, piece):
        """One piece. Lines of the first one are counted."""
        if isinstance(piece, bytes):
            pipe.write(piece)
            return
        if isinstance(piece, list):
            self.feed_output(pipe, piece)
            return
        last, counted = b"\n", piece is self.pieces[0]
        with open(piece, "rb") as source:
            while octets := source.read(PIECE):
                pipe.write(octets)
                self.lines += counted * octets.count(b"\n")
                last = octets[-1:]
                self.watcher.look()
        if last != b"\n":
            pipe.write(b"\n")
            self.lines += counted

    def feed_output(self, pipe, words):
        """What a program writes."""
        with tempfile.TemporaryFile() as errors:
            with started(words, stdin=subprocess.DEVNULL, stdout=subprocess.PIPE, stderr=errors) as maker:
                self.watcher.processes.append(maker)
                try:
                    while octets := maker.stdout.read1(PIECE):
                        pipe.write(octets)
                    maker.wait()
                finally:
                    maker.kill()
            if maker.returncode:
                errors.seek(0)
                self.fail(line_of(errors.read(SAID)) or f"{words[0]}: {ended_by(maker)}")


def run_step(step, words, pieces, out, job):
    """Runs one program. Its output goes to a file that gets its name when the program has ended. Gives the row, and
    how many lines of the first piece were fed."""
    begun = time.monotonic()
    new = f"{out}.{socket.gethostname()}.{os.getpid()}.new"
    try:
        with open(new, "wb") as sink, tempfile.TemporaryFile() as errors:
            process = started(words, stdin=subprocess.PIPE, stdout=sink, stderr=errors)
            watcher = Watcher(process, words[0], job["limit"], job["patience"])
            watcher.start()
            feeder = Feeder(process, pieces, watcher)
            feeder.start()
            process.wait()
            feeder.join()
            watcher.ended.set()
            watcher.join()
            errors.seek(0)
            said = line_of(errors.read(SAID))
        is_faulty = feeder.fault and not watcher.late and not watcher.stopped
        if watcher.stopped or is_faulty:
            os.unlink(new)
        else:
            os.replace(new, out)
    except OSError as why:
        try:
            os.unlink(new)
        except OSError:
            pass
        return row(step, "fault", str(why), time.monotonic() - begun), 0
    if watcher.stopped:
        raise Stopped(f"{step} stood stopped for {job['patience']} s")
    if is_faulty:
        return row(step, "fault", feeder.fault, time.monotonic() - begun, watcher.memory), feeder.lines
    return row(step, ended_by(process, watcher.late), said, time.monotonic() - begun, watcher.memory), feeder.lines


def found(job):
    """Whether the trace is what the list says, or the row that says what it is."""
    try:
        size = os.stat(job["trace"]).st_size
        if len(job["expected"]) == 64:
            with open(job["trace"], "rb") as source:
                digest = hashlib.file_digest(source, "sha256").hexdigest()
            if digest != job["expected"]:
                return row("find", "changed", f"its SHA-256 is {digest}")
        elif int(job["expected"]) != size:
            return row(
                "find",
                "cut" if size < int(job["expected"]) else "changed",
                f"{size} octets, where the list has {job['expected']}",
            )
        if job["report"] and not os.path.isfile(job["report"]):
            return row("find", "missing", f"{os.path.basename(job['report'])}: no such file")
    except OSError as why:
        return row("find", "missing", f"{os.path.basename(job['trace'])}: {why.strerror}")
    return None


def last_lines(path):
    """The last lines of what a step wrote."""
    try:
        with open(path, "rb") as told:
            told.seek(max(0, os.stat(path).st_size - PIECE))
            return told.read().splitlines()
    except OSError:
        return []


def last_line(path):
    """The last one: what an audit says of all that it read, and of `--why` the place."""
    return line_of(b"".join(last_lines(path)[-1:]))


def lines_of(path):
    """How many lines a file has; the last one may have no newline."""
    lines, last = 0, b"\n"
    with open(path, "rb") as source:
        while octets := source.read(PIECE):
            lines += octets.count(b"\n")
            last = octets[-1:]
    return lines + (last != b"\n")


def run_steps(job):
    """All steps of one trace: its report, made or given, then what is to be known of it. Gives rows and lines."""
    wrong = found(job)
    if wrong:
        return [wrong], 0
    trace, report, out, program, steps = (job[word] for word in ("trace", "report", "out", "program", "steps"))
    rows, lines = [], 0
    try:
        os.makedirs(os.path.dirname(out), exist_ok=True)
    except OSError as why:
        return [row("run", "fault", str(why))], 0
    if report is None:
        report = out + ".report"
        if "solo" in steps or not os.path.isfile(report):
            told, lines = run_step("solo", [program, "solo"], [trace], report, job)
            rows.append(told)
            if told["status"] not in ("0", "6", "7"):  # no report of all lines before the trace's stop
                return rows, lines
    both, judged = [trace, b"REPORT\n", report], "not audited"
    # an audit of the whole, or epoch by epoch
    audited, words = (both, []) if job["along"] is None else ([[job["along"], trace, report]], ["--along"])
    if "audit" in steps:
        told, fed = run_step("audit", [program, "audit", *words, *job["setup"]], audited, out + ".audit", job)
        rows.append(told)
        lines = lines or fed or lines_of(trace)
        if told["status"] in ("0", "9"):
            judged = last_line(out + ".audit")
            told["said"] = told["said"] and f"{told['said']}: {judged}"
        if told["status"] == "9" and "why" in steps:
            why, _ = run_step("why", [program, "audit", "--why", *words, *job["setup"]], audited, out + ".why", job)
            if why["status"] == "9":
                why["said"] = last_line(out + ".why")
            rows.append(why)
    if "balance" in steps:
        words = [program, "balance", "--slices", job["slices"]]
        rows.append(run_step("balance", words, both, out + ".balanced", job)[0])
    if "tables" in steps:
        words = [job["tables"], trace, report, out + ".sqlite", "--audit", judged]
        rows.append(run_step("tables", words, [], out + ".tables", job)[0])
        try:
            os.unlink(out + ".tables")  # it writes nothing on standard output
        except OSError:
            pass
    return rows, lines


def run_trace(job):
    """Does a trace. Gives its rows, how many lines it has, the host, and why it is to be done again, if it is."""
    told = {"rows": [], "lines": 0, "host": socket.gethostname(), "again": ""}
    try:
        told["rows"], told["lines"] = run_steps(job)
    except Stopped as why:
        told["again"] = str(why)
    return told
