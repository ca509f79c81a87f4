"""Instructions of the operator: which texts are some. A bad line would end the core, so another one is asked first; the
rule of what a line is stays with the program."""
import select
import subprocess
from typing import Iterator

from shell.faults import CoreFault, InstructionFault

PATIENCE = 10.0
KINDS = (b"ATTACH", b"BEARER", b"FILTERS", b"DROP", b"AMBR", b"MOVE")


class Judge:
    """A core of its own, whose lines are judged and never answered to anybody."""

    def __init__(self, program: str) -> None:
        self.program = program
        self.process: subprocess.Popen | None = None
        self.line_count = 0

    def begin(self) -> subprocess.Popen:
        try:
            return subprocess.Popen(
                [self.program, "solo"],
                stdin=subprocess.PIPE,
                stdout=subprocess.PIPE,
                stderr=subprocess.DEVNULL,
                bufsize=0,
                start_new_session=True,
            )
        except OSError as fault:
            raise CoreFault(f"the core {self.program} can't be started: {fault.strerror}") from fault

    def fault_of(self, text: bytes) -> str | None:
        """The word for what is wrong with an instruction; None where nothing is."""
        if text.split(b" ", 1)[0] not in KINDS or b"\n" in text:
            return "kind"
        if self.process is None:
            self.line_count = 0
            self.process = self.begin()
        self.line_count += 2
        try:
            self.process.stdin.write(b"0 %s\n0 FENCE\n" % text)
        except BrokenPipeError:
            pass  # it has said why
        refused = b"N %d line " % (self.line_count - 1)
        why = "length"
        for entry in self.entries():
            if entry == b"N %d fence" % self.line_count:
                return None
            if entry.startswith(refused):
                why = entry[len(refused) :].decode()
        self.close()
        return why

    def entries(self) -> Iterator[bytes]:
        """The whole entries that the core says, up to its end."""
        rest = b""
        while True:
            if not select.select([self.process.stdout], [], [], PATIENCE)[0]:
                raise CoreFault(f"the core doesn't say within {PATIENCE:.0f} seconds whether an instruction is one")
            octets = self.process.stdout.read(1 << 16)
            if not octets:
                return
            *whole, rest = (rest + octets).split(b"\n")
            yield from whole

    def close(self) -> None:
        if self.process:
            self.process.stdout.close()
            try:
                self.process.stdin.close()
            except BrokenPipeError:
                pass
            self.process.kill()
            self.process.wait()
            self.process = None


def read_file(path: str, judge: Judge) -> list[bytes]:
    """The instructions of a file: a line each; empty ones and those that begin with # are passed over."""
    try:
        with open(path, "rb") as file:
            lines = file.read().split(b"\n")
    except OSError as fault:
        raise InstructionFault(f"{path} can't be read: {fault.strerror}") from fault
    found = []
    for number, text in enumerate(lines, 1):
        if text and not text.startswith(b"#"):
            why = judge.fault_of(text)
            if why:
                raise InstructionFault(f"line {number} of {path} is no instruction: {why}")
            found.append(text)
    return found
