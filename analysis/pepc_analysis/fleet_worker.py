"""A worker of this machine: a line of its standard input is a trace, and what came of it a line of its standard output;
an empty one now and then says that it is alive, and BEGUN that it has a trace. It shares nothing with other workers,
and ends with its driver."""
import json
import os
import sys
import threading
import time

from . import fleet_task

BEAT = 1.0  # seconds between two lines that say so
BEGUN = b"begun"


def answer(words: dict) -> dict:
    """What came of a trace."""
    try:
        return fleet_task.run_trace(words)
    except Exception as why:
        said = f"{type(why).__name__}: {why}"[: fleet_task.SAID]
        return {"rows": [fleet_task.row("run", "fault", said)], "lines": 0, "host": "-", "again": ""}


class Answers:
    """Standard output, on which two threads write whole lines."""

    def __init__(self) -> None:
        self.lock = threading.Lock()

    def tell(self, line: bytes) -> None:
        """Writes one; without a driver there is nothing left to do."""
        with self.lock:
            try:
                while line:
                    line = line[os.write(1, line) :]
            except OSError:
                os._exit(1)

    def beat(self) -> None:
        """Says now and then that the worker is alive."""
        while True:
            self.tell(b"\n")
            time.sleep(BEAT)


def main() -> None:
    answers = Answers()
    threading.Thread(target=answers.beat, daemon=True).start()
    for line in sys.stdin.buffer:
        answers.tell(BEGUN + b"\n")
        answers.tell(json.dumps(answer(json.loads(line))).encode() + b"\n")
    os._exit(0)
