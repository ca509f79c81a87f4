"""How the commands end: their statuses, and the one line that says why. The numbers are those of `pepc` where one
fits; 1 and 130 are of the fleet."""
import os

WELL = 0
NOT_WELL = 1  # fleet: some step of some trace isn't well
USAGE = 2
READ_FAULT = 3  # a file can't be read; fleet: the scheduler is lost
WRITE_FAULT = 4
NO_MEMORY = 5
BAD_LINE = 6  # a line of the trace isn't what its entry needs
TOO_LONG = 7
REFUTED = 9  # the tables stand, and their charges aren't what was forwarded
BAD_REPORT = 12  # a line of the report is no entry, or answers another line than was due
STOPPED = 130  # a signal


class Fault(Exception):
    """The end of a command: a status, and the line that tells it."""

    def __init__(self, status: int, text: str):
        super().__init__(text)
        self.status = status


def at(file: str, line: int, why: str, status: int) -> Fault:
    """The fault of a line of a file."""
    return Fault(status, f"{file} line {line}: {why}")


def remove(path: str) -> None:
    """A file goes, if it is there and can go."""
    try:
        os.unlink(path)
    except OSError:
        pass
