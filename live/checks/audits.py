"""An audit beside the core that refutes, that ends or is ended, that stands still."""

import json
import os
import signal
from typing import Any, Callable

from checks.judging import Checks
from checks.refusals import stub
from peers.lab import LIVE, Lab, children_of, is_there, until
from peers.network import MOST_SECONDS, STRANGER

PAGE = 8080
ALONG, JUDGE = 0, 1  # the first children of a gateway that is audited


class Audited:
    """A gateway with an audit beside its core."""

    def __init__(self, checks: Checks, lab: Lab, what: str, core: str) -> None:
        self.checks, self.lab, self.what = checks, lab, what
        self.record = lab.folder / what.replace(" ", "-")
        self.gateway = lab.gateway("--core", core, "--record", str(self.record), "--audited", "--page", str(PAGE))
        self.below = children_of(self.gateway)

    def state(self) -> dict[str, Any]:
        """What the page is told."""
        return json.loads(self.lab.network.run("gw", "curl", "-s", f"http://127.0.0.1:{PAGE}/state.json").stdout)

    def answered(self) -> bool:
        """A datagram that is sent is answered by the core."""
        lines = self.state()["lines"]
        self.lab.network.run("enb", str(LIVE / "peers" / "probe"), "--address", STRANGER, "2152", "00")
        return until(lambda: (state := self.state())["lines"] > lines and not state["unanswered"])

    def told(self, part: str) -> None:
        """The page tells what came of the audit, and the gateway goes on."""
        is_told = until(lambda: part in self.state()["audit"]["said"])
        self.checks.expect(f"{self.what}: the page tells it", is_told, self.state()["audit"])
        self.checks.expect(f"{self.what}: the gateway goes on", self.answered())

    def ends(self, status: int, part: str) -> None:
        """The gateway stops with this status and line, its record is whole, and nothing is left."""
        said = self.gateway.stderr.read().strip()
        self.checks.expect(
            f"{self.what}: status {status} and a line",
            self.gateway.wait(MOST_SECONDS) == status and said.count("\n") == 0 and part in said,
            f"{self.gateway.returncode} {said[-200:]}",
        )
        is_over = (self.record / "stopped").exists() and not any(map(is_there, self.below))
        self.checks.expect(f"{self.what}: the record is whole, and no process is left", is_over, self.below)


def run(checks: Checks, lab: Lab) -> None:
    """Whatever comes of an audit is told, on the page and on standard error; the gateway goes on till it is stopped."""
    good, folder = lab.core, lab.folder
    lying = f'[ $1 = audit ] && exec {good} "$@"\n{good} "$@" | sed -u "s/^N 1 s1u .*/N 1 s1u type/"\n'
    ending = f'[ $1 = audit ] && exit 3\nexec {good} "$@"\n'

    def kill(which: int, number: int) -> Callable[[Audited], None]:
        return lambda it: os.kill(it.below[which], number)

    cases: list[tuple[str, str, Callable[[Audited], None], str, int]] = [
        ("a core that lies", stub(folder, "lying", lying), lambda it: None, "epoch 1 isn't lawful: no ", 9),
        ("an audit that ends", stub(folder, "ending", ending), lambda it: None, "it ended with status 3", 8),
        ("an audit that is killed", good, kill(JUDGE, signal.SIGKILL), "it was ended by signal 9", 8),
        ("pieces that are ended", good, kill(ALONG, signal.SIGKILL), "examples/along was ended by signal 9", 8),
    ]
    for what, core, act, part, status in cases:
        it = Audited(checks, lab, what, core)
        it.answered()
        act(it)
        it.answered()  # an epoch is judged once the next one has an entry
        it.told(part)
        it.gateway.terminate()
        it.ends(status, part)
    for what, is_asked_again in (("an audit that stands still", False), ("an audit that isn't waited for", True)):
        it = Audited(checks, lab, what, good)
        os.kill(it.below[JUDGE], signal.SIGSTOP)
        checks.expect(f"{what}: the gateway goes on", it.answered())
        it.gateway.terminate()
        if is_asked_again:
            until(lambda: (it.record / "stopped").exists())
            it.gateway.terminate()
        it.ends(8, "it hasn't come to the end of the record")
