"""A session that is killed, stopped and gone on with."""

import json
import os
import pathlib
import shutil
import signal
import subprocess
import time

from checks.judging import Checks, audited, judge_frames, went_along
from peers import wire
from peers.lab import CAPTURE_SECONDS, Lab, attach, children_of, core_of, is_there, until
from peers.network import ENODEBS, HOST, MOST_SECONDS

NOTIFICATION = 176
ACCEPTED = 16


class Resumed:
    """A session whose shell and core are killed under iperf3, and gone on with each time."""

    def __init__(self, checks: Checks, lab: Lab) -> None:
        self.checks, self.lab = checks, lab
        self.record = lab.folder / "resumed"
        self.s1, self.sgi = lab.folder / "s1-resumed.pcap", lab.folder / "sgi-resumed.pcap"

    def begin(self) -> None:
        """One subscriber with traffic, one idle."""
        self.gateway = self.lab.gateway("--record", str(self.record), "--audited")
        self.captures = [self.lab.capture("s1", self.s1)]
        self.lab.host()
        self.enodebs, self.mme = self.lab.enodebs(), self.lab.mme()
        self.busy = attach(self.mme, self.enodebs, "001010000000001", 0x1000, 0xB01)
        self.idle = attach(self.mme, self.enodebs, "001010000000002", 0x2000, 0xC01)
        self.mme.do("release", to=self.idle["control"])
        self.pinging = self.lab.start(
            "pdn", "ping", "-c", "1", "-W", "900", self.idle["address"], stdout=subprocess.PIPE
        )
        notified = self.mme.do("wait", type=NOTIFICATION, seconds=MOST_SECONDS)
        self.checks.expect("a packet is held before the kills", notified)
        self.stream = self.lab.start(
            "enb",
            "iperf3",
            "-c",
            HOST,
            "-B",
            self.busy["address"],
            "-t",
            "900",
            "-b",
            "3M",
            "-J",
            "--repeating-payload",
            stdout=subprocess.PIPE,
        )

    def keep(self, name: str) -> None:
        """The record as it stands after a kill."""
        shutil.copytree(self.record, self.lab.folder / name)

    def cut(self, name: str) -> None:
        """A record that was kept is judged as it stands, and with a batch and an entry cut in the middle."""
        kept = self.lab.folder / name
        audited(self.checks, self.lab, kept, f"the record of a {name}")
        (kept / "stopped").unlink(missing_ok=True)
        with open(kept / "trace", "ab") as trace, open(kept / "report", "ab") as report:
            trace.write(b"9999999999 AMBR 001010000000001 1 1\n9999999999 S1U 30ff")
            report.write(b"P 99")
        audited(self.checks, self.lab, kept, "the same, cut in the middle of a line,")

    def resume(self) -> None:
        """Goes on with the record, and sees iperf3 go on."""
        begun = time.monotonic()
        self.gateway = self.lab.gateway("--resume", str(self.record), "--audited")
        took = time.monotonic() - begun
        self.flows(f"iperf3 goes on behind it, {took:.1f} s after")

    def flows(self, what: str) -> None:
        """The acknowledgements of iperf3 come down to the eNodeB."""
        wanted = self.forwarded() + 100
        self.checks.expect(what, until(lambda: self.forwarded() >= wanted))

    def forwarded(self) -> int:
        return json.loads(self.enodebs.tell("counts"))["down packets"].get(self.busy["address"], 0)

    def run(self) -> None:
        self.begin()
        self.flows("iperf3 sends")
        below = children_of(self.gateway)
        self.gateway.send_signal(signal.SIGKILL)
        self.gateway.wait()
        is_over = until(lambda: not any(map(is_there, below)))
        self.checks.expect("core and audit end with a shell that is killed", len(below) == 3 and is_over, below)
        self.keep("killed shell")
        self.resume()
        os.kill(core_of(self.gateway), signal.SIGKILL)
        status, said = self.gateway.wait(MOST_SECONDS), self.gateway.stderr.read().strip()
        is_told = status == 4 and "the core" in said and "the audit" not in said
        self.checks.expect("a core that is killed ends the shell with a clear line and status 4", is_told, said)
        self.keep("killed core")
        self.resume()
        self.gateway.terminate()
        self.checks.expect("the gateway stops with status 0", self.gateway.wait(MOST_SECONDS) == 0)
        self.keep("gateway that stopped")
        self.resume()
        self.end()
        for name in ("killed shell", "killed core", "gateway that stopped"):
            self.cut(name)

    def end(self) -> None:
        self.lab.end(self.stream)
        answer = self.mme.do("modify", to=self.idle["control"], enodeb=ENODEBS[0], enodeb_teid=0xC01)
        self.checks.expect("a subscriber is still attached", answer and answer["cause"] == ACCEPTED)
        self.checks.expect(
            "the packet that was held before the kills goes down behind them",
            "time=" in self.pinging.communicate(timeout=MOST_SECONDS)[0],
        )
        time.sleep(CAPTURE_SECONDS)
        self.gateway.terminate()
        told = self.gateway.stdout.read()
        self.checks.expect("the gateway stops with status 0", self.gateway.wait(MOST_SECONDS) == 0)
        went_along(self.checks, self.record, told)
        self.lab.end(self.captures[0])
        said = audited(self.checks, self.lab, self.record, "the joined record")
        self.checks.expect("the joined record is whole", said == "yes\n", said)
        report = (self.record / "report").read_bytes()
        told, seen = wire.told(report), wire.seen(self.s1, self.s1)
        twice = {it: (count, told[it]) for it, count in seen.items() if count > told[it]}
        self.checks.expect(
            "no message was sent twice, or untold",
            not twice,
            next(((place, octets.hex()[:60]) for place, octets in twice), ""),
        )
        judge_frames(self.checks, [self.s1])


def run(checks: Checks, lab: Lab) -> None:
    Resumed(checks, lab).run()
