"""A lab at work: its network, and the processes in it, which are all ended when it is left."""
import contextlib
import json
import pathlib
import signal
import subprocess
import tempfile
import time
from typing import Any, Callable

from peers.network import ENODEBS, GATEWAY, HOST, MMES, MOST_SECONDS, Network

HERE = pathlib.Path(__file__).resolve().parent
LIVE = HERE.parent
CAPTURE_SECONDS = 1.3  # in which a capture takes over what passed
UP_INTERFACE = 1  # S1-U GTP-U of a serving gateway (TS 29.274, 8.22)


def until(is_so: Callable[[], bool]) -> bool:
    """Waits until something is so, and tells whether it came to be."""
    end = time.monotonic() + MOST_SECONDS
    while not is_so():
        if time.monotonic() > end:
            return False
        time.sleep(0.1)
    return True


class Peer:
    """A process of the lab that is told lines and answers each by one."""

    def __init__(self, process: subprocess.Popen) -> None:
        self.process = process

    def tell(self, line: str) -> str:
        self.process.stdin.write(line + "\n")
        self.process.stdin.flush()
        answer = self.process.stdout.readline()
        if not answer:
            raise RuntimeError(f"{self.process.args[-1]} ended at {line}")
        return answer.rstrip("\n")


class Mme(Peer):
    """The MME made with scapy."""

    def __init__(self, process: subprocess.Popen) -> None:
        super().__init__(process)
        self.process.stdout.readline()

    def do(self, what: str, **given: Any) -> dict[str, Any] | None:
        return json.loads(self.tell(json.dumps({"do": what, **given})))


class Lab:
    """A context: inside it the network stands."""

    def __init__(self, tag: str, core: str) -> None:
        self.network, self.core = Network(tag), str(pathlib.Path(core).resolve())
        self.processes: list[subprocess.Popen] = []
        self.folder = pathlib.Path()

    def __enter__(self) -> "Lab":
        self.room = tempfile.TemporaryDirectory(prefix="pepc-live-")
        self.folder = pathlib.Path(self.room.name)
        try:
            self.network.up()
        except BaseException:
            self.__exit__()
            raise
        return self

    def __exit__(self, *_: Any) -> None:
        ending = {signal.SIGTERM, signal.SIGINT, signal.SIGALRM}
        before = signal.pthread_sigmask(signal.SIG_BLOCK, ending)  # so that nothing is left
        try:
            for process in reversed(self.processes):
                self.end(process)
            self.network.down()
            self.room.cleanup()
        finally:
            signal.pthread_sigmask(signal.SIG_SETMASK, before)

    def start(self, place: str, *words: str, **options: Any) -> subprocess.Popen:
        """Starts a process there; it is ended with the lab at the latest."""
        process = subprocess.Popen(
            self.network.within(place, *words), text=True, **{"stdin": subprocess.DEVNULL, **options}
        )
        self.processes.append(process)
        return process

    def end(self, process: subprocess.Popen, seconds: float = 5.0) -> int:
        """Asks a process to end, and ends it where it doesn't."""
        if process.poll() is None:
            process.terminate()
            try:
                process.wait(seconds)
            except subprocess.TimeoutExpired:
                process.kill()
        for pipe in (process.stdin, process.stdout, process.stderr):
            if pipe:
                with contextlib.suppress(BrokenPipeError):
                    pipe.close()
        return process.wait()

    def gateway(self, *words: str) -> subprocess.Popen:
        """A gateway that is at work when this returns."""
        process = self.start(
            "gw", str(LIVE / "gateway"), "--core", self.core, *words, stdout=subprocess.PIPE, stderr=subprocess.PIPE
        )
        said = process.stdout.readline()
        if "at work" not in said:
            raise RuntimeError(f"the gateway doesn't begin: {said}{process.stderr.read()}")
        return process

    def enodebs(self) -> Peer:
        words = [word for address in ENODEBS for word in ("--address", address)]
        return Peer(
            self.start(
                "enb", str(HERE / "enodeb"), "--gateway", GATEWAY, *words, stdin=subprocess.PIPE, stdout=subprocess.PIPE
            )
        )

    def mme(self, address: str = MMES[0]) -> Mme:
        return Mme(
            self.start("enb", str(HERE / "mme"), "--address", address, stdin=subprocess.PIPE, stdout=subprocess.PIPE)
        )

    def capture(self, link: str, path: pathlib.Path) -> subprocess.Popen:
        """tcpdump on a link of the gateway, at work when this returns; it has what passed CAPTURE_SECONDS ago."""
        process = self.start(
            "gw", "tcpdump", "-i", link, "-s", "0", "-B", "65536", "-U", "-w", str(path), stderr=subprocess.PIPE
        )
        process.stderr.readline()
        return process

    def host(self) -> None:
        """iperf3 on the internet's host."""
        self.start("pdn", "iperf3", "-s", "-B", HOST, stdout=subprocess.DEVNULL, stderr=subprocess.DEVNULL)
        until(lambda: f"{HOST}:5201" in self.network.run("pdn", "ss", "-Hltn").stdout)

    def iperf(self, address: str, *words: str) -> dict[str, Any]:
        """iperf3 from a UE, and what it tells in JSON. Octets drawn at random look like any protocol to tshark."""
        ran = self.network.run("enb", "iperf3", "-c", HOST, "-B", address, "-J", "--repeating-payload", *words)
        return json.loads(ran.stdout)


def children_of(gateway: subprocess.Popen) -> list[int]:
    """The processes that a gateway began, in this order: its audit's two, its core."""
    return [int(word) for word in pathlib.Path(f"/proc/{gateway.pid}/task/{gateway.pid}/children").read_text().split()]


def is_there(pid: int) -> bool:
    """Whether a process runs; one that ended and isn't waited for doesn't."""
    try:
        return pathlib.Path(f"/proc/{pid}/stat").read_text().rpartition(")")[2].split()[0] not in "ZX"
    except OSError:
        return False


def core_of(gateway: subprocess.Popen) -> int:
    """The process of a gateway's core: the child that it began last."""
    return children_of(gateway)[-1]


def attach(
    mme: Mme, enodebs: Peer, imsi: str, mme_teid: int, enodeb_teid: int, ambr: tuple[int, int] = (1_000_000, 1_000_000)
) -> dict[str, Any]:
    """A subscriber that is attached and has an eNodeB; what the gateway gave it."""
    created = mme.do("create", imsi=imsi, teid=mme_teid, ambr=ambr)
    if not created or created["cause"] != 16:
        raise RuntimeError(f"Create Session Request of {imsi}: {created}")
    teids = {interface: teid for interface, teid, _ in created["fteids"]}
    given = {
        "imsi": imsi,
        "address": created["paa"],
        "control": teids[11],
        "up": teids[UP_INTERFACE],
        "enodeb_teid": enodeb_teid,
    }
    modified = mme.do("modify", to=given["control"], enodeb=ENODEBS[0], enodeb_teid=enodeb_teid)
    if not modified or modified["cause"] != 16:
        raise RuntimeError(f"Modify Bearer Request of {imsi}: {modified}")
    enodebs.tell(f"ue {given['address']} {ENODEBS[0]} {given['up']:x}")
    return given
