"""What is too long, too much or not there for an edge."""

import json
import subprocess
import time

from checks.judging import Checks, audited
from peers import wire
from peers.lab import CAPTURE_SECONDS, LIVE, Lab, until
from peers.network import MOST_SECONDS, STRANGER

PAGE = 8080


def run(checks: Checks, lab: Lab) -> None:
    """The longest packet, a full socket, a TUN device that is down: each is counted by name, and nothing ends."""
    record, instructions = lab.folder / "strained", lab.folder / "one"
    instructions.write_text("ATTACH 001010000000001 192.0.2.2 00000b01 4294967295 4294967295\n")
    gateway = lab.gateway(
        "--record", str(record), "--instructions", str(instructions), "--mtu", "65535", "--page", str(PAGE)
    )
    captures = {link: lab.folder / f"strained-{link}.pcap" for link in ("s1", "pepc0")}
    dumps = [lab.capture(link, path) for link, path in captures.items()]
    lab.start("enb", str(LIVE / "peers" / "flood"), "sink", stdout=subprocess.PIPE).stdout.readline()

    def counts() -> dict:
        return json.loads(lab.network.run("gw", "curl", "-s", f"http://127.0.0.1:{PAGE}/state.json").stdout)["edges"]

    lab.network.run("gw", "ping", "-c", "1", "-W", "1", "-s", "65507", "10.45.0.2")
    checks.expect(
        "a packet of 65,535 octets is told, and is too long for UDP",
        until(lambda: counts()["S1U"].get("lost EMSGSIZE") == 1),
        counts()["S1U"],
    )
    flood = [str(LIVE / "peers" / "flood"), "down", "--size", "1400", "--rate", "5000", "--seconds", "2"]
    limited = lab.network.run(
        "gw", "tc", "qdisc", "add", "dev", "s1", "root", "tbf", "rate", "2mbit", "burst", "3000", "limit", "50000000"
    )
    if limited.returncode:
        print(f"       a full socket is passed over, as tc has no tbf here: {limited.stderr.strip()}")
    else:
        for _ in range(4):
            lab.network.run("pdn", *flood)
            if counts()["S1U"].get("waited", 0) > 0:
                break
        checks.expect("a socket that is full has packets wait", counts()["S1U"].get("waited", 0) > 0, counts()["S1U"])
        lab.network.do(
            lab.network.names["gw"],
            "tc",
            "qdisc",
            "change",
            "dev",
            "s1",
            "root",
            "tbf",
            "rate",
            "1gbit",
            "burst",
            "300000",
            "limit",
            "50000000",
        )
        is_empty = until(lambda: counts()["S1U"]["waiting now"] == 0)
        checks.expect("and they go when it has room", is_empty, counts()["S1U"])
    lab.network.do(lab.network.names["gw"], "ip", "link", "set", "pepc0", "down")
    lab.network.run(
        "enb",
        str(LIVE / "peers" / "probe"),
        "--address",
        STRANGER,
        "2152",
        "30ff001400000011" + "450000140000000040110000" + "0a2d0002cb007109",
    )
    is_lost = until(lambda: counts()["SGI"].get("lost EIO") == 1)
    checks.expect("a TUN device that is down loses a packet by name", is_lost, counts()["SGI"])
    time.sleep(CAPTURE_SECONDS)
    gateway.terminate()
    checks.expect("the gateway stops with status 0", gateway.wait(MOST_SECONDS) == 0)
    for dump in dumps:
        lab.end(dump)
    audited(checks, lab, record, "it")
    lost = wire.told((record / "report").read_bytes()) - wire.seen(captures["s1"], captures["pepc0"])
    checks.expect(
        "all that was answered was sent, but these two",
        lost.total() == 2,
        f"{lost.total()} {[(place, len(octets)) for place, octets in lost][:3]}",
    )
