"""The program `pepc` as a process: lines go in, entries come out, and nobody waits while either pipe is full."""
import collections
import fcntl
import os
import pathlib
import subprocess
import sys

from shell.faults import CoreFault

PIPE_OCTETS = 1 << 20
TOP = pathlib.Path(__file__).resolve().parents[2]
BUILT = TOP / "crates" / "pepc_main" / "out" / "pepc_main"


def program_of(given: str | None) -> str:
    """The program that is given, or else this tree's own, which is proved and built first where it isn't."""
    if given:
        return given
    with subprocess.Popen(
        [TOP / "pepc", "--prove"], stdin=subprocess.DEVNULL, stderr=subprocess.PIPE, text=True
    ) as proving:
        for line in proving.stderr:
            if line != "pepc: proved already\n":
                sys.stderr.write(line)
    if proving.returncode:
        raise CoreFault(f"the core isn't proved: ./pepc --prove ended with status {proving.returncode}")
    return str(BUILT)


class Core:
    """A core that works."""

    def __init__(self, program: str, command: str) -> None:
        self.command = command
        try:
            self.process = subprocess.Popen(
                [program, command], stdin=subprocess.PIPE, stdout=subprocess.PIPE, bufsize=0, start_new_session=True
            )
        except OSError as fault:
            raise CoreFault(f"the core {program} can't be started: {fault.strerror}") from fault
        self.into, self.out = self.process.stdin.fileno(), self.process.stdout.fileno()
        self.unwritten: collections.deque[memoryview] = collections.deque()
        self.rest = b""
        self.ended = False
        for pipe in (self.into, self.out):
            os.set_blocking(pipe, False)
            try:
                fcntl.fcntl(pipe, fcntl.F_SETPIPE_SZ, PIPE_OCTETS)
            except PermissionError:
                pass  # past the user's limit: the pipe stays as it is

    def give(self, octets: bytes) -> None:
        """Gives octets to the core, behind those that wait for room in its pipe."""
        self.unwritten.append(memoryview(octets))
        self.write()

    def write(self) -> None:
        """Writes what waits, as far as there is room."""
        while self.unwritten:
            try:
                count = os.write(self.into, self.unwritten[0])
            except BlockingIOError:
                return
            except BrokenPipeError as fault:
                raise CoreFault(f"the core takes no more lines: {self.end()}") from fault
            if count < len(self.unwritten[0]):
                self.unwritten[0] = self.unwritten[0][count:]
            else:
                self.unwritten.popleft()

    def read(self) -> bytes:
        """The whole entries that came since, as one text."""
        try:
            octets = os.read(self.out, PIPE_OCTETS)
        except BlockingIOError:
            return b""
        if not octets:
            self.ended = True
            return b""
        whole, newline, self.rest = (self.rest + octets).rpartition(b"\n")
        return whole + newline

    def close(self) -> None:
        """Says that no line comes any more."""
        self.process.stdin.close()

    def wait(self, seconds: float) -> int | None:
        """The core's status; None where it doesn't end in time."""
        try:
            return self.process.wait(seconds)
        except subprocess.TimeoutExpired:
            return None

    def end(self) -> str:
        """How the core ended, in words; one that hasn't is ended."""
        status = self.wait(2)
        if status is None:
            self.process.kill()
            return "it doesn't end, and was killed"
        return f"it ended with status {status}" if status >= 0 else f"it was ended by signal {-status}"

    def kill(self) -> None:
        """Ends the core, however it stands."""
        self.process.kill()
        self.process.wait()
        self.process.stdout.close()
        self.process.stdin.close()
