"""The list of a fleet: a line for each trace, with its path, its octets or SHA-256, and maybe a report's path, a tab
between each two. A path is below the base; relative ones are taken from there."""
import os
import re
from typing import NamedTuple

from .faults import BAD_LINE, Fault, READ_FAULT, at

SIZE, HASH = re.compile("0|[1-9][0-9]{0,17}"), re.compile("[0-9a-f]{64}")


class Listed(NamedTuple):
    """A line of the list: the trace's name in OUT, its path, what it must be, and the report's path."""

    name: str
    path: str
    expected: str
    report: str | None


def below(base: str, word: str) -> str | None:
    """A path below the base, or none."""
    path = os.path.realpath(os.path.join(base, word))
    return path if path.startswith(base.rstrip("/") + "/") else None


def read(path: str, base: str) -> list[Listed]:
    """The lines of a list; a faulty one ends all."""
    try:
        with open(path, encoding="utf-8", errors="surrogateescape", newline="\n") as source:
            lines = source.read().splitlines()
    except OSError as why:
        raise Fault(READ_FAULT, f"{path}: {why.strerror}") from None
    found: dict[str, Listed] = {}
    for number, line in enumerate(lines, 1):

        def wrong(why: str) -> Fault:
            return at(path, number, why, BAD_LINE)

        fields = line.split("\t")
        if len(fields) not in (2, 3) or not all(fields):
            raise wrong("it isn't a path, octets or SHA-256, and maybe a report, with a tab between each two")
        trace = below(base, fields[0])
        report = below(base, fields[2]) if fields[2:] else None
        if trace is None or (fields[2:] and report is None):
            raise wrong(f"a path outside {base}")
        if not SIZE.fullmatch(fields[1]) and not HASH.fullmatch(fields[1]):
            raise wrong(f"{fields[1][:80]}: neither octets nor a SHA-256 of 64 hexadecimal digits")
        name = os.path.relpath(trace, base).removesuffix(".trace")
        if not name.isprintable() or re.search(r"(^|/)(fleet|charges)\.(sqlite|png|svg)", name):
            raise wrong("a name that isn't plain text, or that is the fleet's own")
        if name in found:
            raise wrong(f"{fields[0]}: a path twice")
        found[name] = Listed(name, trace, fields[1], report)
    if not found:
        raise Fault(BAD_LINE, f"{path} line 1: the list is empty")
    return list(found.values())
