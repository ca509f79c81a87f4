"""How far a fleet is: a bar on a terminal, a line now and then elsewhere."""
import sys
import time

WIDE = 24


def time_of(seconds: float) -> str:
    """A time in words."""
    seconds = int(seconds)
    if seconds >= 3600:
        return f"{seconds // 3600} h {seconds % 3600 // 60} min"
    return f"{seconds // 60} min {seconds % 60} s" if seconds >= 60 else f"{seconds} s"


class Progress:
    """Counts traces that are done, failed or lost; the time that is left is told by octets."""

    def __init__(self, traces: int, octets: int):
        self.traces, self.octets = traces, max(octets, 1)
        self.done = self.failed = self.lost = self.lines = self.read = 0
        self.begun, self.shown = time.monotonic(), 0.0
        self.terminal = sys.stderr.isatty()

    def count(self, statuses: list[str], lines: int, octets: int) -> None:
        """One more trace has its rows."""
        self.done += 1
        self.lost += "lost" in statuses
        self.failed += "lost" not in statuses and any(status != "0" for status in statuses)
        self.lines += lines
        self.read += octets

    def tell(self, workers: int, last: bool = False) -> None:
        """Shows it, at most five times a second on a terminal and each ten seconds elsewhere."""
        now = time.monotonic()
        if not last and now - self.shown < (0.2 if self.terminal else 10):
            return
        self.shown = now
        spent = max(now - self.begun, 1e-9)
        part = min(self.read / self.octets if self.octets > 1 else self.done / max(self.traces, 1), 1)
        left = time_of(spent * (1 - part) / part) if part > 0 else "?"
        text = (
            f"{self.done}/{self.traces} done, {self.failed} failed, {self.lost} lost, "
            f"{self.done / spent:.1f} traces/s, "
            f"{self.lines / spent:,.0f} lines/s, {workers} workers, {left} left"
        )
        if self.terminal:
            filled = WIDE * self.done // max(self.traces, 1)
            text = f"\r\x1b[K[{'#' * filled}{'.' * (WIDE - filled)}] {text}"
        print(text, end="" if self.terminal and not last else "\n", file=sys.stderr, flush=True)
