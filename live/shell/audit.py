"""An audit beside the core: examples/along makes pieces of what is recorded, and another process of the program judges
them, epoch by epoch. It looks on alone: whatever comes of it is told, and the gateway goes on."""
import os
import pathlib
import signal
import subprocess
import sys
import tempfile
import threading
import time
from typing import Any, Callable

from shell.core import TOP
from shell.faults import AuditFault

ALONG = TOP / "examples" / "along"
PATIENCE = 10.0  # seconds without a word, once the record is whole
LOOKED = 0.1  # seconds between two looks at that
LONGEST = 200  # of a place that is told
HAS_ENDED, WAS_REFUTED = AuditFault.status, 9
LAWFUL = b"lawful "


class Audit:
    """An audit that goes along with a record. The shell holds its input open too, as the death of what makes the pieces
    isn't the record's end."""

    def __init__(self, program: str, folder: pathlib.Path) -> None:
        self.epoch = self.line = 0  # up to which all is lawful
        self.said = ""  # what came of it
        self.status = 0
        self.is_ending = False
        self.lock = threading.Lock()
        self.errors = tempfile.TemporaryFile()
        pieces, self.into = os.pipe()
        # pdeathsig: it ends with the shell, and so does the audit, whose input ends then
        along = ["setpriv", "--pdeathsig", "TERM", "--", ALONG, "--follow", folder / "trace", folder / "report"]
        judge = [program, "audit", "--along", "--solo", "--why"]
        both = {"stderr": self.errors, "start_new_session": True}
        try:
            # (the signal that the record is whole waits until it can be taken)
            before = signal.pthread_sigmask(signal.SIG_BLOCK, {signal.SIGTERM})
            try:
                self.along = subprocess.Popen(along, stdin=subprocess.DEVNULL, stdout=self.into, **both)
            finally:
                signal.pthread_sigmask(signal.SIG_SETMASK, before)
            self.judge = subprocess.Popen(judge, stdin=pieces, stdout=subprocess.PIPE, **both)
        except OSError as fault:
            raise AuditFault(f"the audit can't be started: {fault}") from fault
        os.close(pieces)
        self.hearing = threading.Thread(target=self.hear, daemon=True)
        self.hearing.start()
        threading.Thread(target=self.watch, daemon=True).start()

    def hear(self) -> None:
        """Takes what the audit says, up to its end."""
        rest, verdict = b"", []
        while octets := os.read(self.judge.stdout.fileno(), 1 << 16):
            *lines, rest = (rest + octets).split(b"\n")
            for line in lines:
                if line.startswith(LAWFUL):
                    self.epoch, self.line = map(int, line.split(b" ")[1:])
                else:
                    verdict.append(line[:LONGEST].decode(errors="replace"))
        status = self.judge.wait()
        if status == 0 and verdict == ["yes"] and self.is_ending:
            self.tell("yes", 0)
        elif status == WAS_REFUTED and verdict:
            self.tell(f"epoch {self.epoch + 1} isn't lawful: {', '.join(verdict)}", WAS_REFUTED)
        else:
            self.tell(f"it {self.ended(status)}", HAS_ENDED)
        self.along.kill()

    def watch(self) -> None:
        """Waits for the end of what makes the pieces; where nobody asked for that, the audit is ended."""
        status = self.along.wait()
        # SIGPIPE: the audit has ended, and why is heard
        if status != -signal.SIGPIPE and (status or not self.is_ending):
            self.tell(f"examples/along {self.ended(status)}", HAS_ENDED)
            self.judge.kill()
        os.close(self.into)

    def ended(self, status: int) -> str:
        """How a process ended, in words."""
        how = f"ended with status {status}" if status >= 0 else f"was ended by signal {-status}"
        self.errors.seek(0)
        return ": ".join([how, *self.errors.read().decode(errors="replace").splitlines()])

    def tell(self, said: str, status: int) -> None:
        """Tells what came of the audit, the first time."""
        with self.lock:
            if not self.said:
                self.said, self.status = said, status
                up_to = f"lawful up to epoch {self.epoch}, line {self.line}"
                place = sys.stderr if status else sys.stdout
                print(f"live/gateway: the audit: {up_to}; {said}", file=place, flush=True)

    def told(self) -> dict[str, Any]:
        """What the page shows."""
        return {"epoch": self.epoch, "line": self.line, "said": self.said}

    def finish(self, is_given_up: Callable[[], bool]) -> int:
        """Has the audit go on to the end of the record, which is whole, unless it says nothing for too long or isn't
        waited for any more. Its status."""
        self.is_ending = True
        self.along.terminate()
        epoch, since = self.epoch, time.monotonic()
        while self.hearing.is_alive() and not is_given_up() and time.monotonic() - since < PATIENCE:
            self.hearing.join(LOOKED)
            if self.epoch != epoch:
                epoch, since = self.epoch, time.monotonic()
        self.tell("it hasn't come to the end of the record", HAS_ENDED)
        return self.status

    def close(self) -> None:
        """Leaves no process behind. Of a record that was cut there is nothing to be told."""
        with self.lock:
            self.said = self.said or "the record was cut"
        for process in (self.along, self.judge):
            process.kill()
            process.wait()
