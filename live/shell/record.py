"""A session as files: what came (`trace`), what the core said of it (`report`), and where S11 messages came from
(`peers`: line, address, port).

A batch is recorded whole before the core is given it, and an entry before it is acted on. So whatever ends the shell,
each answer that anybody was sent stands in the report, and each line that was answered in the trace. A killed shell may
leave a batch without its FENCE (which no core was given), a cut last line, and lines without entries; as lines have one
report, `solo` says what these entries are. Files are synced at a stop alone: a record outlives its processes, not the
power.
"""
import fcntl
import os
import pathlib
import subprocess
import tempfile
from typing import IO, Any, Iterator

from shell import instructions, lines
from shell.faults import CoreFault, RecordFault

NAMES = ("trace", "report", "peers")
STOPPED = "stopped"  # an empty file: the core ended as it was told, so all stands in the report, its open counters too
CHUNK = 1 << 20


class Record:
    """The files of a session that goes on."""

    def __init__(self, folder: str, resumed: bool) -> None:
        self.folder = pathlib.Path(folder)
        try:
            self.folder.mkdir(parents=True, exist_ok=True)
            if not resumed and any((self.folder / name).exists() for name in NAMES):
                raise RecordFault(f"{folder} has a record already (--resume goes on with it)")
            if resumed and not (self.folder / "trace").exists():
                raise RecordFault(f"{folder} has no record")
            self.files = [os.open(self.folder / name, os.O_RDWR | os.O_CREAT | os.O_APPEND, 0o600) for name in NAMES]
            fcntl.flock(self.files[0], fcntl.LOCK_EX | fcntl.LOCK_NB)
        except BlockingIOError as fault:
            raise RecordFault(f"{folder} is recorded into by another shell") from fault
        except OSError as fault:
            raise RecordFault(f"no record in {folder}: {fault.strerror}") from fault

    def lines(self, text: bytes, first: int, sources: list[Any]) -> None:
        """Records a batch; its peers first, so that each message in the trace has its own."""
        peers = b"".join(
            b"%d %s %d\n" % (first + place, source.address[0].encode(), source.address[1])
            for place, source in enumerate(sources)
            if type(source) is lines.FromMme
        )
        if peers:
            self.write(2, peers)
        self.write(0, text)

    def entries(self, text: bytes) -> None:
        """Records whole entries."""
        self.write(1, text)

    def write(self, which: int, text: bytes) -> None:
        rest = memoryview(text)
        try:
            while rest:
                rest = rest[os.write(self.files[which], rest) :]
        except OSError as fault:
            raise RecordFault(f"{self.folder / NAMES[which]} can't be written: {fault.strerror}") from fault

    def stop(self) -> None:
        """Says that the session is whole; so far files are written, now they are synced."""
        for file in self.files:
            os.fsync(file)
        (self.folder / STOPPED).touch()

    def close(self) -> None:
        for file in self.files:
            os.close(file)


class Past:
    """What a record says: its whole batches, and what the core still owes of them."""

    def __init__(self, folder: str) -> None:
        self.folder = pathlib.Path(folder)
        self.line_count = self.last_moment = 0
        self.commands: dict[int, bytes] = {}  # messages and instructions, by their lines' numbers
        try:
            self.trace_octets = end_of_batches(self.folder / "trace")
            self.report_octets = end_of_entries(self.folder / "report")
            self.read_trace()
            self.peers = self.read_peers()
        except (OSError, ValueError, IndexError) as fault:
            raise RecordFault(f"{folder} isn't a record: {fault}") from fault

    def read_trace(self) -> None:
        with open(self.folder / "trace", "rb") as trace:
            for line in whole_lines(trace, self.trace_octets):
                self.line_count += 1
                if line.split(b" ", 2)[1] in (lines.S11, *instructions.KINDS):
                    self.commands[self.line_count] = line
            if self.line_count:
                self.last_moment = int(line.split(b" ", 1)[0])

    def read_peers(self) -> dict[int, tuple[str, int]]:
        """Where the S11 messages came from, by their lines: the last that is told of one, as batches are cut off."""
        peers = {}
        for line in (self.folder / "peers").read_bytes().split(b"\n")[:-1]:
            number, address, port = line.split(b" ")
            peers[int(number)] = (address.decode(), int(port))
        return peers

    def source_of(self, number: int) -> Any:
        """Where a line came from, as far as it is recorded."""
        _, kind, *arguments = self.commands.get(number, b"0 -").split(b" ")
        if kind == lines.S11 and number in self.peers:
            return lines.FromMme(self.peers[number], bytes.fromhex(arguments[0].decode()))
        if kind in instructions.KINDS:
            return lines.FromOperator(None, b" ".join([kind, *arguments]))
        return None

    def trim(self) -> None:
        """Takes off the files what is no whole batch, no whole entry, or an open counter."""
        (self.folder / STOPPED).unlink(missing_ok=True)
        os.truncate(self.folder / "trace", self.trace_octets)
        os.truncate(self.folder / "report", self.report_octets)
        os.truncate(self.folder / "peers", last_line(self.folder / "peers", lambda line: True))

    def run(self, program: str, command: str) -> Iterator[bytes]:
        """What the program says of the whole batches, line by line."""
        with tempfile.TemporaryFile() as said:
            with open(self.folder / "trace", "rb") as trace:
                try:
                    core = subprocess.Popen([program, command], stdin=subprocess.PIPE, stdout=said)
                    copy(trace, self.trace_octets, core.stdin)
                    core.stdin.close()
                except BrokenPipeError:
                    pass  # its status says why
                except OSError as fault:
                    raise CoreFault(f"the core {program} can't be started: {fault.strerror}") from fault
            if core.wait():
                raise CoreFault(f"{command} of the record ended with status {core.returncode}")
            said.seek(0)
            yield from said

    def state(self, program: str) -> bytes:
        """The subscribers that the whole batches leave, as `resume` reads them."""
        return b"".join(self.run(program, "save"))

    def answers(self, program: str) -> Iterator[tuple[bytes, bool]]:
        """Each entry of the whole batches, and whether it is recorded; open counters come last and never are."""
        with open(self.folder / "report", "rb") as report:
            recorded = whole_lines(report, self.report_octets)
            for number, entry in enumerate(self.run(program, "solo"), 1):
                entry = entry[:-1]
                told = next(recorded, None)
                if told is not None and told != entry:
                    raise RecordFault(f"line {number} of the record's report isn't what its trace gives")
                yield entry, told is not None
            if next(recorded, None) is not None:
                raise RecordFault("the record's report has more than its trace gives")


def whole_lines(file: IO[bytes], octets: int) -> Iterator[bytes]:
    """The lines in the first octets of a file, without their newlines."""
    while octets > 0:
        line = file.readline()
        octets -= len(line)
        yield line[:-1]


def copy(file: IO[bytes], octets: int, into: IO[bytes]) -> None:
    """Copies the first octets of a file."""
    while octets > 0:
        part = file.read(min(CHUNK, octets))
        into.write(part)
        octets -= len(part)


def end_of_batches(path: pathlib.Path) -> int:
    """How many octets of a trace its whole batches have: up to its last FENCE."""
    return last_line(path, lambda line: line.endswith(b" FENCE"))


def end_of_entries(path: pathlib.Path) -> int:
    """How many octets of a report its whole entries have, less the open counters at its end."""
    return last_line(path, lambda line: not line.startswith(b"O "))


def last_line(path: pathlib.Path, fits) -> int:
    """Where the last whole line ends that fits, looked for from the end of a file."""
    size = path.stat().st_size if path.exists() else 0
    with open(path, "rb") as file:
        behind, text = size, b""
        while behind > 0:
            begin = max(0, behind - CHUNK)
            file.seek(begin)
            text = file.read(behind - begin) + text
            behind = begin
            lines = text.split(b"\n")
            end = begin + len(text)
            # the first piece may have begun earlier, the last one has no newline
            end -= len(lines[-1])
            for line in reversed(lines[0 if begin == 0 else 1 : -1]):
                if fits(line):
                    return end
                end -= len(line) + 1
            text = lines[0] + b"\n" if begin and len(lines) > 1 else text
    return 0
