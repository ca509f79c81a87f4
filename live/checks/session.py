"""A session with peers that nobody here wrote: an MME of scapy, ping, curl, iperf3, tshark."""

import json
import pathlib
import re
import subprocess
import sys
import threading
import time

from checks.judging import Checks, audited, judge_frames, judge_wire, went_along
from peers.lab import CAPTURE_SECONDS, LIVE, Lab, attach, until
from peers.network import ENODEBS, HOST, MMES, MOST_SECONDS, STRANGER

PAGE = 8080
NOTIFICATION, CREATE_BEARER_REQUEST = 176, 95
ACCEPTED = 16
UDP_HEAD = 28  # of IPv4 and UDP


def octets_charged(report: bytes, slot: int, life: int) -> tuple[int, int]:
    """Octets up and down over the records and the open counter of a life."""
    rows = re.findall(rb"^[RO] %d %d \d+ \d+ \d+ (\d+) (\d+) " % (slot, life), report, re.M)
    return sum(int(up) for up, _ in rows), sum(int(down) for _, down in rows)


class Session:
    """A session with all the peers, recorded."""

    def __init__(self, checks: Checks, lab: Lab) -> None:
        self.checks, self.lab = checks, lab
        self.record, self.operator = lab.folder / "record", lab.folder / "operator"
        self.s1, self.sgi = lab.folder / "s1.pcap", lab.folder / "sgi.pcap"

    def tell(self, *instructions: str) -> list[str]:
        ran = subprocess.run([str(LIVE / "tell"), str(self.operator), *instructions], capture_output=True, text=True)
        return (ran.stdout + ran.stderr).splitlines()

    def ping(self, address: str, *words: str) -> subprocess.CompletedProcess:
        return self.lab.network.run("enb", "ping", "-I", address, *words, HOST)

    def begin(self) -> None:
        """Three subscribers: one of the operator's, and one of each MME."""
        instructions = self.lab.folder / "instructions"
        instructions.write_text("# at the start\nATTACH 001010000000009 192.0.2.2 00000909 1000000 1000000\n")
        self.gateway = self.lab.gateway(
            "--record",
            str(self.record),
            "--operator",
            str(self.operator),
            "--page",
            str(PAGE),
            "--audited",
            "--times",
            "--instructions",
            str(instructions),
        )
        self.captures = [self.lab.capture("s1", self.s1), self.lab.capture("pepc0", self.sgi)]
        self.enodebs, self.mmes = self.lab.enodebs(), [self.lab.mme(address) for address in MMES]
        self.lab.host()
        self.enodebs.tell(f"ue 10.45.0.2 {ENODEBS[0]} 11")
        self.first = attach(self.mmes[0], self.enodebs, "001010000000001", 0x1000, 0xB01)
        self.second = attach(self.mmes[1], self.enodebs, "001010000000002", 0x2000, 0xC01)
        self.checks.expect(
            "two MMEs made with scapy attach a subscriber each, and each gets its own answers",
            (self.first["address"], self.second["address"]) == ("10.45.0.3", "10.45.0.4"),
            (self.first["address"], self.second["address"]),
        )

    def traffic(self) -> None:
        """ping, curl and iperf3 from the UEs."""
        for address in ("10.45.0.2", self.first["address"]):
            pinged = self.ping(address, "-c", "5", "-i", "0.2")
            self.checks.expect(
                f"ping from {address}", ", 0% packet loss" in pinged.stdout, pinged.stdout.strip().splitlines()[-1:]
            )
        folder = self.lab.folder / "served"
        folder.mkdir()
        (folder / "file").write_bytes(b"a file of some length\n" * 15_000)
        self.lab.start(
            "pdn",
            sys.executable,
            "-m",
            "http.server",
            "--bind",
            HOST,
            "--directory",
            str(folder),
            "8000",
            stdout=subprocess.DEVNULL,
            stderr=subprocess.DEVNULL,
        )
        fetched = self.lab.folder / "fetched"
        self.lab.network.run(
            "enb",
            "curl",
            "-s",
            "--interface",
            self.first["address"],
            "--retry",
            "12",
            "--retry-delay",
            "1",
            "--retry-connrefused",
            "-o",
            str(fetched),
            f"http://{HOST}:8000/file",
        )
        self.checks.expect(
            "curl fetches a file", fetched.exists() and fetched.read_bytes() == (folder / "file").read_bytes()
        )
        for way, words in (("up", ()), ("down", ("-R",))):
            sent = self.lab.iperf(self.second["address"], "-n", "2M", "-b", "10M", *words)
            octets = sent["end"]["sum_received"]["bytes"]
            self.checks.expect(f"iperf3 over TCP {way}", octets >= 1_000_000, f"{octets} octets of 2 MB")

    def bearer(self) -> None:
        """A bearer with a filter for UDP is asked for, accepted, and takes what iperf3 sends down, octet for octet."""
        self.tell(f"BEARER {self.first['imsi']} 7 50000 50000 0 0 213009023011")
        asked = self.mmes[0].do("wait", type=CREATE_BEARER_REQUEST, seconds=MOST_SECONDS)
        self.checks.expect(
            "the MME is asked for a bearer", asked and asked["teid"] == 0x1000 and asked["fteids"], asked
        )
        self.mmes[0].do(
            "accept", to=self.first["control"], seq=asked["seq"], ebi=6, enodeb=ENODEBS[0], enodeb_teid=0xB02
        )
        self.mmes[0].do("echo")  # its answer comes behind what is done with the acceptance
        sent = self.lab.iperf(self.first["address"], "-u", "-R", "-b", "4M", "-l", "1000", "-k", "1000")
        self.streamed = sent["end"]["sum"]["packets"] * (1000 + UDP_HEAD)
        self.checks.expect(
            "iperf3 over UDP comes down that bearer", sent["end"]["sum"]["packets"] > 500, sent["end"]["sum"]["packets"]
        )

    def policing(self) -> threading.Thread:
        """Begins ten seconds of iperf3 at twice the rate that is allowed; the thread ends with its verdict."""
        answer = self.tell(f"AMBR {self.second['imsi']} 1000 1000", "AMBR 001 1", "ATTACK 001010000000001")
        self.checks.expect(
            "an instruction is answered by its entry, what is none is refused",
            len(answer) == 3 and answer[0].startswith("C ") and answer[1:] == ["refused field", "refused kind"],
            answer,
        )

        def run() -> None:
            # again where a busy machine let the stream stand still
            is_met, told = False, ""
            for _ in range(5):
                try:
                    words = ("-u", "-b", "2M", "-l", "1000", "-t", "10")
                    stream = self.lab.iperf(self.second["address"], *words)
                    received = stream["end"]["sum_received"]["bytes"]
                except (subprocess.SubprocessError, ValueError, KeyError) as fault:
                    # (an exception would end the thread, and this check with it)
                    told = repr(fault)
                    continue
                rate = received * (1000 + UDP_HEAD) / 1000 * 8 / 10 / 1e6
                is_met, told = 0.95 <= rate <= 1.05, f"{rate:.3f} Mbit/s of IPv4"
                if is_met:
                    break
            self.checks.expect("iperf3 is policed to 1 Mbit/s within 5 % over 10 s", is_met, told)

        thread = threading.Thread(target=run)
        thread.start()
        return thread

    def idle(self) -> None:
        """A ping to an idle subscriber is held, notified, and answered when the path is back."""
        self.mmes[0].do("release", to=self.first["control"])
        pinging = self.lab.start("pdn", "ping", "-c", "1", "-W", "90", self.first["address"], stdout=subprocess.PIPE)
        notified = self.mmes[0].do("wait", type=NOTIFICATION, seconds=MOST_SECONDS)
        self.checks.expect(
            "the MME is notified of a held packet",
            notified and notified["teid"] == 0x1000 and notified["ebi"] == [5],
            notified,
        )
        self.mmes[0].do("acknowledge", to=self.first["control"], seq=notified["seq"] if notified else 0)
        time.sleep(0.5)
        self.modify(ENODEBS[0], 0xB01)
        answer = pinging.communicate(timeout=MOST_SECONDS)[0]
        late = re.search(r"time=([\d.]+) ms", answer)
        self.checks.expect("the ping that was held is answered", late and float(late[1]) >= 500, late and late[0])

    def modify(self, enodeb: str, teid: int) -> None:
        answer = self.mmes[0].do("modify", to=self.first["control"], enodeb=enodeb, enodeb_teid=teid)
        self.checks.expect(f"Modify Bearer Request to {enodeb}", answer and answer["cause"] == ACCEPTED)
        self.enodebs.tell(f"ue {self.first['address']} {enodeb} {self.first['up']:x}")

    def switch(self) -> None:
        """The path goes to another eNodeB."""
        self.modify(ENODEBS[1], 0xD01)
        pinged = self.ping(self.first["address"], "-c", "3", "-i", "0.2")
        self.checks.expect("ping by the other eNodeB", ", 0% packet loss" in pinged.stdout)

    def garbage(self) -> None:
        """What no peer should send is noted, and nothing ends."""
        probe = [str(LIVE / "peers" / "probe"), "--address", STRANGER]
        echo = self.lab.network.run("enb", *probe, "2152", "320100040000000000070000").stdout.split()
        self.checks.expect(
            "a GTP-U Echo Request is answered where it came from", echo == ["3202000600000000000700000e00"], echo
        )
        self.checks.expect("a GTPv2-C Echo Request is answered", self.mmes[1].do("echo"))
        junk = [
            "-",
            "00",
            "ff" * 40,
            "65507*ff",
            "30ff000000009999",
            "30ff0014000000114500",
            "34ff000400000011" + "00000085",
            "45" * 9,
        ]
        for port in ("2152", "2123"):
            self.lab.network.run("enb", *probe, port, *junk)
        whole = "30ff" + "ffdb" + "00000011" + "4500" + "ffdb" + "00000000" + "40fd" + "0000" + "0a2d0002" + "cb007109"
        self.lab.network.run("enb", *probe, "2152", whole + "00" * (0xFFDB - 20))
        broadcast = "30ff001400000011" + "45000014000000004011000" + "00a2d0002ffffffff"
        self.lab.network.run("enb", *probe, "2152", broadcast)
        time.sleep(0.3)
        self.checks.expect(
            "the gateway still works",
            self.gateway.poll() is None and ", 0% packet loss" in self.ping(self.first["address"], "-c", "1").stdout,
        )

    def state(self) -> dict:
        """What the page is told, with the last entries of a subscriber."""
        told = self.lab.network.run("gw", "curl", "-s", f"http://127.0.0.1:{PAGE}/state.json?slot=1")
        return json.loads(told.stdout)

    def page(self) -> None:
        """The page and its JSON, on the gateway's loopback alone."""
        html = self.lab.network.run("gw", "curl", "-s", f"http://127.0.0.1:{PAGE}/").stdout
        state = self.state()
        rows = {row["slot"]: row for row in state["subscribers"]}
        self.checks.expect(
            "the page is there",
            "</html>" in html
            and state["attached"] == 3
            and rows[1]["imsi"] == self.first["imsi"]
            and len(state["last"]) > 3,
        )
        self.checks.expect(
            "it tells what was policed, held and noted",
            rows[2]["verdicts"].get("policed", 0) > 500
            and rows[1]["verdicts"].get("held") == 1
            and state["notes"].get("s1u short", 0) > 0
            and state["edges"]["S1U"].get("received empty") == 1,
            {**state["notes"], **state["edges"]["S1U"]},
        )
        is_told = until(lambda: self.state()["audit"]["epoch"] > 0)
        state = self.state()
        audit = state["audit"]
        is_near = 0 < audit["line"] <= state["lines"] and not audit["said"]
        self.checks.expect("it tells up to which epoch all was lawful", is_told and is_near, audit)
        away = self.lab.network.run("pdn", "curl", "-s", "-m", "1", f"http://203.0.113.1:{PAGE}/")
        self.checks.expect("it is on no other address", away.returncode != 0)

    def end(self) -> None:
        """The last subscriber goes, the gateway stops, and the record and the wire are judged."""
        gone = self.mmes[1].do("delete", to=self.second["control"])
        self.checks.expect("the MME deletes a session", gone and gone["cause"] == ACCEPTED, gone)
        stray = self.mmes[1].do("release", to=self.second["control"])
        self.checks.expect("a session that is gone has cause 64", stray and stray["cause"] == 64)
        counts = json.loads(self.enodebs.tell("counts"))
        time.sleep(CAPTURE_SECONDS)
        self.gateway.terminate()
        said = self.gateway.stdout.read().strip()
        self.checks.expect("the gateway stops with status 0", self.gateway.wait(MOST_SECONDS) == 0, said)
        for capture in self.captures:
            self.lab.end(capture)
        report = (self.record / "report").read_bytes()
        audited(self.checks, self.lab, self.record, "the session")
        went_along(self.checks, self.record, said)
        charged = octets_charged(report, 1, 1)[1]
        # iperf3 greets with four octets more
        self.checks.expect(
            "the bearer is charged what iperf3 sent, octet for octet",
            charged == self.streamed + UDP_HEAD + 4,
            (charged, self.streamed),
        )
        up, down = octets_charged(report, 2, 0)
        self.checks.expect(
            "a subscriber is charged what its eNodeB forwarded down",
            down == counts["down"][self.second["address"]],
            (down, counts["down"][self.second["address"]]),
        )
        sent, policed = counts["up packets"][self.second["address"]], len(
            re.findall(rb"^P \d+ 2 \d+ \d+ policed", report, re.M)
        )
        passed = len(re.findall(rb"^P \d+ 2 \d+ \d+ up", report, re.M))
        self.checks.expect(
            "each packet that its eNodeB sent up was forwarded or policed",
            sent == policed + passed,
            (sent, policed, passed),
        )
        judge_wire(self.checks, report, self.s1, self.sgi, 0)
        judge_frames(self.checks, [self.s1, self.sgi], [(ENODEBS[0], "0x00000b01")])

    def run(self) -> None:
        self.begin()
        self.traffic()
        self.bearer()
        policing = self.policing()
        self.idle()
        self.switch()
        self.garbage()
        policing.join()
        self.page()
        self.end()


def run(checks: Checks, lab: Lab) -> None:
    Session(checks, lab).run()
