"""What the parts share: counting, the commands, and pairs of a trace and its report."""
import os
import pathlib
import resource
import subprocess
import sys
from typing import Any, Iterator, NamedTuple

TOP = pathlib.Path(__file__).resolve().parents[2]
ANALYSIS = TOP / "analysis"
PEPC = TOP / "crates/pepc_main/out/pepc_main"
DEMO = ANALYSIS / "demo.trace"
HANG = 600  # seconds: no command takes so long, on a slow machine either


class Pair(NamedTuple):
    """A trace and its report, as files."""

    name: str
    trace: pathlib.Path
    report: pathlib.Path


class Check:
    """Counts what holds, and prints what doesn't."""

    def __init__(self, room: pathlib.Path):
        self.room = room
        self.passed = self.failed = 0

    def same(self, what: str, found: Any, wanted: Any) -> bool:
        """What was found is what is wanted."""
        if found == wanted:
            self.passed += 1
            return True
        self.failed += 1
        print(f"{what}:\n  found  {str(found)[:600]}\n  wanted {str(wanted)[:600]}", flush=True)
        return False

    def holds(self, what: str, true: bool) -> bool:
        """Something that must be so."""
        return self.same(what, bool(true), True)

    def command(self, what: str, words: list, status: int, said: str | None = None, **more: Any) -> str:
        """A command of analysis/ ends with this status, and says this line on standard error where one is wanted; it
        never shows a traceback. Gives its output."""
        words = [str(ANALYSIS / words[0]), *map(str, words[1:])]
        more = {"timeout": HANG, "stdin": subprocess.DEVNULL, **more}
        ran = subprocess.run(words, stdout=subprocess.PIPE, stderr=subprocess.PIPE, text=True, **more)
        self.same(f"{what}: status", ran.returncode, status)
        self.holds(f"{what}: no traceback, but {ran.stderr[:400]!r}", "Traceback" not in ran.stderr)
        if said is not None:
            self.same(f"{what}: standard error", ran.stderr, said and said + "\n")
        return ran.stdout


def pepc(words: list[str], octets: bytes = b"") -> bytes:
    """What pepc writes for these words and this input; it ends well, or by a bad or long line."""
    ran = subprocess.run([PEPC, *words], input=octets, stdout=subprocess.PIPE, stderr=subprocess.PIPE)
    if ran.returncode not in (0, 6, 7):
        sys.exit(f"analysis/check: pepc {' '.join(words)}: status {ran.returncode}: {ran.stderr.decode()}")
    return ran.stdout


def made(room: pathlib.Path, name: str, trace: bytes, words: list[str] = ["solo"]) -> Pair:
    """A trace with the report that pepc makes of it."""
    pair = Pair(name, room / f"{name}.trace", room / f"{name}.report")
    pair.trace.write_bytes(trace)
    pair.report.write_bytes(pepc(words, trace))
    return pair


def stored_pairs(room: pathlib.Path) -> Iterator[Pair]:
    """All stored reports of whole traces: those of examples/ and cases/, and the lawful ones that are audited. The
    reports of `resume` begin behind a saved state, so that their lines aren't a trace's first ones."""
    for folder in ("examples", "cases/solo"):
        for report in sorted((TOP / folder).glob("*.report")):
            yield Pair(f"{folder}/{report.stem}", report.with_suffix(".trace"), report)
    for folder in ("cases/drive", "cases/replay"):
        for words in sorted((TOP / folder).glob("*.args")):
            trace = words.with_suffix("")
            yield Pair(f"{folder}/{trace.name}", trace, trace.with_suffix(".stdout"))
    for words in sorted((TOP / "cases/audit").glob("*.args")):
        both = words.with_suffix("")
        if both.with_suffix(".stdout").read_bytes() != b"yes\n":
            continue
        lines = both.read_bytes().splitlines(keepends=True)
        middle = lines.index(b"REPORT\n") if b"REPORT\n" in lines else len(lines)
        pair = Pair(f"cases/audit/{both.name}", room / f"audit-{both.name}.trace", room / f"audit-{both.name}.report")
        pair.trace.write_bytes(b"".join(lines[:middle]))
        report = b"".join(lines[middle + 1 :])
        pair.report.write_bytes(report + (b"" if report.endswith(b"\n") or not report else b"\n"))
        yield pair


def small_files() -> None:
    """For a command whose disk is to be full: no file has more than 10,000 octets."""
    resource.setrlimit(resource.RLIMIT_FSIZE, (10_000, 10_000))


def nothing_left(check: Check, what: str, folder: pathlib.Path) -> None:
    """No file under another name is left."""
    check.same(f"{what}: files left", [str(path) for path in folder.rglob("*.new*")], [])


def is_missing(module: str) -> bool:
    """Whether Debian's Python lacks a module."""
    import importlib.util

    return importlib.util.find_spec(module) is None


def children_of(process: int) -> list[int]:
    """The processes that a process started, and theirs."""
    found, parents = [], {}
    for entry in pathlib.Path("/proc").iterdir():
        if entry.name.isdigit():
            try:
                fields = (entry / "stat").read_text().rsplit(")", 1)[1].split()
            except OSError:
                continue
            parents.setdefault(int(fields[1]), []).append(int(entry.name))
    waiting = [process]
    while waiting:
        children = parents.get(waiting.pop(), [])
        found += children
        waiting += children
    return found


def parent_of(process: int) -> int:
    """Who started a process; 0 where it isn't there."""
    try:
        return int(pathlib.Path(f"/proc/{process}/stat").read_text().rsplit(")", 1)[1].split()[1])
    except OSError:
        return 0


def is_there(process: int) -> bool:
    """Whether a process runs; one that ended and waits for its parent doesn't."""
    try:
        return pathlib.Path(f"/proc/{process}/stat").read_text().rsplit(")", 1)[1].split()[0] not in "ZX"
    except OSError:
        return False


def words_of(process: int) -> str:
    """The command line of a process."""
    try:
        return pathlib.Path(f"/proc/{process}/cmdline").read_bytes().replace(b"\0", b" ").decode("latin-1")
    except OSError:
        return ""


SAFE = {**os.environ, "PYTHONWARNINGS": "ignore"}
