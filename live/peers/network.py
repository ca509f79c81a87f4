"""The lab: three network namespaces of their own, which touch nothing outside.

    enb  192.0.2.2, 192.0.2.3 (eNodeBs)  192.0.2.4, 192.0.2.5 (MMEs) --- 192.0.2.1  gw  203.0.113.1 --- 203.0.113.9  pdn
"""
import os
import pathlib
import shutil
import subprocess

GATEWAY, ENODEBS, MMES = "192.0.2.1", ("192.0.2.2", "192.0.2.3"), ("192.0.2.4", "192.0.2.5")
STRANGER = "192.0.2.6"  # sends what no peer should
GATEWAY_SGI, HOST, NOBODY = "203.0.113.1", "203.0.113.9", "203.0.113.77"
SUBSCRIBERS = "10.45.0.0/16"
MOST_SECONDS = 120.0  # of a command, on a machine however slow
DEBIAN_PYTHON = "/usr/bin/python3"  # it alone has Debian's scapy

COMMANDS = {
    "ip": "iproute2",
    "ping": "iputils-ping",
    "iperf3": "iperf3",
    "curl": "curl",
    "tcpdump": "tcpdump",
    "tshark": "tshark",
}


class Network:
    """The namespaces, by what stands in them; a tag keeps labs apart."""

    def __init__(self, tag: str = "") -> None:
        self.names = {place: f"pepc{tag}-{place}" for place in ("enb", "gw", "pdn")}

    def within(self, place: str, *words: str) -> list[str]:
        """The words of a command that runs there."""
        return ["ip", "netns", "exec", self.names[place], *words]

    def run(self, place: str, *words: str, timeout: float = MOST_SECONDS) -> subprocess.CompletedProcess:
        """Runs a command there to its end, or so long."""
        return subprocess.run(
            self.within(place, *words), stdin=subprocess.DEVNULL, capture_output=True, text=True, timeout=timeout
        )

    def up(self) -> None:
        """Sets all up."""
        enb, gw, pdn = self.names.values()
        for name in self.names.values():
            do("ip", "netns", "add", name)
            self.do(name, "ip", "link", "set", "lo", "up")
            self.do(name, "sysctl", "-qw", "net.ipv6.conf.all.disable_ipv6=1", "net.ipv6.conf.default.disable_ipv6=1")
            # ports that tshark takes for no protocol
            self.do(name, "sysctl", "-qw", "net.ipv4.ip_local_port_range=50100 53999")
        do("ip", "link", "add", "s1", "netns", enb, "type", "veth", "peer", "name", "s1", "netns", gw)
        do("ip", "link", "add", "sgi", "netns", gw, "type", "veth", "peer", "name", "sgi", "netns", pdn)
        for name, link, addresses in (
            (enb, "s1", (*ENODEBS, *MMES, STRANGER)),
            (gw, "s1", (GATEWAY,)),
            (gw, "sgi", (GATEWAY_SGI,)),
            (pdn, "sgi", (HOST,)),
        ):
            for address in addresses:
                self.do(name, "ip", "addr", "add", f"{address}/24", "dev", link)
            self.do(name, "ip", "link", "set", link, "up")
        self.do(pdn, "ip", "route", "add", SUBSCRIBERS, "via", GATEWAY_SGI)
        self.do(gw, "sysctl", "-qw", "net.ipv4.ip_forward=1")

    def down(self) -> None:
        """Takes down what is there; the processes in it are the caller's."""
        there = subprocess.run(["ip", "netns", "list"], capture_output=True, text=True).stdout.split()
        for name in self.names.values():
            if name in there:
                do("ip", "netns", "del", name)

    def do(self, name: str, *words: str) -> None:
        do("ip", "netns", "exec", name, *words)


def do(*words: str) -> None:
    """Runs a command that has to succeed."""
    ran = subprocess.run(words, capture_output=True, text=True)
    if ran.returncode:
        raise RuntimeError(f"{' '.join(words)}: {ran.stderr.strip()}")


def missing(commands: tuple[str, ...] = tuple(COMMANDS), scapy: bool = True) -> list[str]:
    """What this machine doesn't have of what the lab needs, in words."""
    found = [] if os.geteuid() == 0 else ["root"]
    if not pathlib.Path("/dev/net/tun").exists():
        found.append("/dev/net/tun")
    found += [f"{name} (Debian's {COMMANDS[name]})" for name in commands if not shutil.which(name)]
    if scapy and subprocess.run([DEBIAN_PYTHON, "-c", "import scapy.contrib.gtp_v2"], capture_output=True).returncode:
        found.append("scapy with gtp_v2 (Debian's python3-scapy)")
    if not found:
        trial = Network(f"{os.getpid()}-trial")
        try:
            trial.up()
            trial.do(trial.names["gw"], "ip", "tuntap", "add", "dev", "pepc0", "mode", "tun")
        except RuntimeError as fault:
            found.append(f"what a lab of namespaces needs ({fault})")
        finally:
            trial.down()
    return found
