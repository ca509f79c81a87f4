"""What `prove` and `answer` share: the crates that a program stands on, one run of rt at a time, and a run of rt that leaves
no process and no temporary file, however it ends."""
import collections.abc
import contextlib
import ctypes
import fcntl
import os
import pathlib
import re
import shutil
import signal
import subprocess
import sys
import tempfile
import time
import typing

TOP = pathlib.Path(__file__).resolve().parent.parent
SUBREAPER, DEATH_SIGNAL = 36, 1
CUTTING = (signal.SIGHUP, signal.SIGINT, signal.SIGTERM)
libc = ctypes.CDLL(None)


def keep_closed() -> None:
    """Puts what can't be read or written in the place of a standard stream that is closed, so that no file gets its number."""
    for number, way in ((0, os.O_WRONLY), (1, os.O_RDONLY), (2, os.O_RDONLY)):
        try:
            os.fstat(number)
        except OSError:
            os.open(os.devnull, way)


def tell(text: str) -> None:
    """Writes to standard error, which may be closed."""
    with contextlib.suppress(OSError):
        os.write(2, text.encode(errors="replace"))


def say(text: str) -> None:
    """Writes a line of this script to standard error."""
    tell(f"pepc: {text}\n")


def fail(text: str, status: int = 1) -> typing.NoReturn:
    """Ends with this line."""
    say(text)
    sys.exit(status)


def lines_below(names: collections.abc.Iterable[str]) -> dict[str, str]:
    """The lines of crates.txt of these crates and of all that they stand on, lowest first, by crate."""
    lines = {}
    for line in (TOP / "crates.txt").read_text().splitlines():
        line = line.partition("#")[0].strip()
        if line:
            lines[re.split(r"[\s:]", line)[0]] = line
    found: dict[str, str] = {}

    def go_down(name: str) -> None:
        if name in lines and name not in found:
            for below in re.split(r"[\s,]+", lines[name].partition(":")[2].strip()):
                go_down(below)
            found[name] = lines[name]

    for name in names:
        go_down(name)
    return found


@contextlib.contextmanager
def turn(file: pathlib.Path, others: str) -> collections.abc.Iterator[bool]:
    """Lets one at a time go on that locks this file, and gives whether this one had to wait."""
    with open(file, "rb") as lock:
        waited = False
        try:
            fcntl.flock(lock, fcntl.LOCK_EX | fcntl.LOCK_NB)
        except BlockingIOError:
            say(f"waiting for {others}")
            waited = True
            fcntl.flock(lock, fcntl.LOCK_EX)
        except OSError:
            pass  # a file system without locks
        yield waited


def cut_off(number: int, _frame: object) -> typing.NoReturn:
    """Ends at a signal, once: what is begun is cleared up."""
    for it in CUTTING:
        signal.signal(it, signal.SIG_IGN)
    sys.exit(128 + number)


@contextlib.contextmanager
def room(name: str) -> collections.abc.Iterator[pathlib.Path]:
    """A folder that goes when this script ends; those of scripts that were killed go first."""
    for it in CUTTING:
        if signal.getsignal(it) != signal.SIG_IGN:
            signal.signal(it, cut_off)
    # whoever loses its parent below is this script's child, and ended with it
    libc.prctl(SUBREAPER, 1)
    # (no signal comes between a file and what removes it)
    signal.pthread_sigmask(signal.SIG_BLOCK, CUTTING)
    for old in pathlib.Path(tempfile.gettempdir()).glob(f"pepc-{name}-*-*"):
        if not pathlib.Path(f"/proc/{old.name.split('-')[2]}").exists():
            shutil.rmtree(old, ignore_errors=True)
    try:
        with tempfile.TemporaryDirectory(prefix=f"pepc-{name}-{os.getpid()}-", ignore_cleanup_errors=True) as folder:
            try:
                os.chmod(folder, 0o711)  # where rt runs as root, it runs tests as nobody
                signal.pthread_sigmask(signal.SIG_UNBLOCK, CUTTING)
                yield pathlib.Path(folder)
            finally:
                signal.pthread_sigmask(signal.SIG_BLOCK, CUTTING)
    except shutil.Error as error:
        # (the first file that couldn't be copied, and why)
        fail(str(error.args[0][0][-1]))
    except OSError as error:
        fail(f"{error.strerror}: {error.filename or tempfile.gettempdir()}")


def end_children() -> None:
    """Ends all that was started below and is left."""
    with contextlib.suppress(ChildProcessError):
        while True:
            for thread in pathlib.Path("/proc/self/task").iterdir():
                for child in (thread / "children").read_text().split():
                    with contextlib.suppress(ProcessLookupError):
                        os.kill(int(child), signal.SIGKILL)
            while os.waitpid(-1, os.WNOHANG)[0]:
                pass
            time.sleep(0.01)


def run_rt(words: list[str], folder: pathlib.Path, temporary: pathlib.Path,
           look: typing.Callable[[int], None] = lambda process: None, **streams: object) -> int:
    """Runs rt in a folder, with temporary files in another, and gives its status. `look` is called each second."""
    if not shutil.which("rt"):
        fail("the program isn't proved and built here, and rt, which does it, isn't found")

    def begin() -> None:
        libc.prctl(DEATH_SIGNAL, signal.SIGTERM)
        signal.pthread_sigmask(signal.SIG_UNBLOCK, CUTTING)

    # (a signal that comes while rt is being started is seen once it can be ended)
    signal.pthread_sigmask(signal.SIG_BLOCK, CUTTING)
    worker = subprocess.Popen(["rt", *words], cwd=folder, env={**os.environ, "TMPDIR": str(temporary)}, preexec_fn=begin, **streams)
    try:
        signal.pthread_sigmask(signal.SIG_UNBLOCK, CUTTING)
        while worker.poll() is None:
            time.sleep(0.1)
            look(worker.pid)
        return worker.returncode
    finally:
        if worker.poll() is None:
            worker.terminate()
            with contextlib.suppress(subprocess.TimeoutExpired):
                worker.wait(30)
        end_children()
