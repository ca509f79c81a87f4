"""What holds and what doesn't; the audit and the wire as judges."""

import pathlib
import subprocess
import time

from peers import wire
from peers.lab import LIVE, Lab


class Checks:
    """What was looked at."""

    def __init__(self) -> None:
        self.faults = self.count = 0
        self.begun = time.monotonic()

    def expect(self, what: str, is_so: object, told: object = "") -> None:
        """Tells what doesn't hold."""
        self.count += 1
        if not is_so:
            self.faults += 1
        print(
            f"  {'ok ' if is_so else 'BAD'} {time.monotonic() - self.begun:5.1f}s {what}"
            + (f": {told}" if told != "" else ""),
            flush=True,
        )


def audited(checks: Checks, lab: Lab, record: pathlib.Path, what: str) -> str:
    ran = subprocess.run([str(LIVE / "audited"), "--core", lab.core, str(record)], capture_output=True, text=True)
    checks.expect(
        f"{what} is yes under audit",
        ran.returncode == 0 and ran.stdout.endswith("yes\n"),
        (ran.stdout + ran.stderr).strip(),
    )
    return ran.stdout


def went_along(checks: Checks, record: pathlib.Path, said: str) -> None:
    """The audit beside the core said `yes` of each epoch of the record."""
    trace = (record / "trace").read_bytes().splitlines()
    epochs = sum(line.endswith(b" FENCE") for line in trace)
    up_to = f"lawful up to epoch {epochs}, line {len(trace)}; yes"
    checks.expect("the audit beside the core went along to its end", up_to in said, said.splitlines()[:1])


def judge_wire(checks: Checks, report: bytes, s1: pathlib.Path, sgi: pathlib.Path, most_lost: int) -> None:
    """Each message that the report tells was sent, once, and no other; a kill may lose those that were on their way."""
    told, seen = wire.told(report), wire.seen(s1, sgi)
    lost, other = told - seen, seen - told
    example = next(((place, octets.hex()[:60]) for place, octets in (lost + other)), "")
    checks.expect(
        "no message is sent that the report doesn't tell, and none twice",
        not other,
        f"{other.total()} of {seen.total()} {example if other else ''}",
    )
    checks.expect(
        "each message that the report tells was sent" + (", but for what a kill caught" if most_lost else ""),
        lost.total() <= most_lost,
        f"{lost.total()} of {told.total()} weren't {example if lost else ''}",
    )


def judge_frames(checks: Checks, captures: list[pathlib.Path], markers: list[tuple[str, str]] | None = None) -> None:
    """tshark reads all of it, and sees these End Markers."""
    malformed, seen = wire.dissected(captures)
    checks.expect("tshark calls no frame malformed, but the stranger's", not malformed, malformed[:3])
    if markers is not None:
        checks.expect("tshark sees one End Marker, at the eNodeB that was left", seen == markers, seen)
