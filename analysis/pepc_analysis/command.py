"""What the commands share: their command line, their end by a signal, and that no fault shows a traceback."""
import argparse
import importlib.util
import signal
import sys
from typing import Callable, NoReturn

from .faults import Fault, NO_MEMORY, STOPPED, USAGE, WRITE_FAULT


class Words(argparse.ArgumentParser):
    """A command line, whose faults have status 2 and one line."""

    def __init__(self, name: str, text: str):
        super().__init__(
            prog=name, description=text, formatter_class=argparse.RawDescriptionHelpFormatter, allow_abbrev=False
        )

    def error(self, message: str) -> NoReturn:
        raise Fault(USAGE, f"{message}; see {self.prog} --help")


def stop(*_) -> NoReturn:
    """A signal: everything is left as at any other fault."""
    raise KeyboardInterrupt


def run(name: str, main: Callable[[list[str]], int]) -> NoReturn:
    """Runs a command; a fault is one line on standard error and its status."""
    for number in (signal.SIGINT, signal.SIGTERM, signal.SIGHUP):  # a shell's background job has SIGINT ignored
        signal.signal(number, stop)
    try:
        status = main(sys.argv[1:])
        sys.stdout.flush()
    except Fault as fault:
        print(f"{name}: {fault}", file=sys.stderr)
        status = fault.status
    except MemoryError:
        print(f"{name}: no memory", file=sys.stderr)
        status = NO_MEMORY
    except BrokenPipeError:
        status = WRITE_FAULT
    except KeyboardInterrupt:
        print(f"{name}: stopped", file=sys.stderr)
        status = STOPPED
    sys.exit(status)


def needs(module: str, package: str) -> None:
    """A module of a Debian package that isn't there is a fault, which names the package."""
    if importlib.util.find_spec(module) is None:
        raise Fault(
            USAGE, f"Debian's package {package} is missing: apt-get install --no-install-recommends {package}"
        )
