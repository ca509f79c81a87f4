"""Makes the tables of a trace and its report."""
import os

from . import schema
from .faults import Fault, READ_FAULT, WRITE_FAULT
from .reading import Reading
from .store import Store, write_sheets


def opened(path: str):
    """A file to read."""
    try:
        return open(path, "rb", 1 << 20)
    except OSError as why:
        raise Fault(READ_FAULT, f"{path}: {why.strerror}") from None


def make_tables(
    trace_path: str,
    report_path: str,
    out: str,
    octets: bool = False,
    sheets: str | None = None,
    audit: str = "not audited",
) -> list[str]:
    """Makes OUT, and FOLDER/TABLE.csv where a folder for sheets is given. Tells what isn't as it must be: a life whose
    charges aren't what was forwarded, or that has no begin, and a line without an entry. At a fault nothing is left.
    """
    with opened(trace_path) as trace, opened(report_path) as report:
        if not os.path.isdir(os.path.dirname(out) or "."):
            raise Fault(WRITE_FAULT, f"{out}: its folder isn't there")
        reading = Reading(trace, report, (trace_path, report_path), octets)
        store = Store(out, report_path)
        try:
            store.begin()
            reading.run(store.take)
            sizes = (os.fstat(file.fileno()).st_size for file in (trace, report))
            store.end(
                (
                    schema.VERSION,
                    os.path.basename(trace_path),
                    os.path.basename(report_path),
                    *sizes,
                    reading.line,
                    reading.at,
                    reading.epoch + 1,
                    reading.unanswered_from,
                    audit,
                )
            )
            wrongs = list(store.wrongs())
            if sheets:
                write_sheets(store.base, sheets)
            store.keep()
        except OSError as why:
            raise Fault(READ_FAULT, f"{trace_path} or {report_path}: {why.strerror}") from None
        finally:
            store.drop()
    if reading.short:
        wrongs.insert(0, f"{trace_path} line {reading.unanswered_from}: no entry of {report_path} answers it")
    return wrongs
