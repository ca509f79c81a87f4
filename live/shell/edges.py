"""Where packets come from and go to: the sockets of S11 and S1-U, the TUN device of SGi, the operator's socket.

Each edge is read and written without waiting. What finds it full waits in order and goes when there is room; what the
kernel refuses is counted by the name of its error and is gone, as on any wire.
"""
import collections
import errno
import fcntl
import os
import socket
import struct
import subprocess
from typing import Any

from shell import lines
from shell.faults import EdgeFault

GATEWAY = "192.0.2.1"
S11_PORT = 2123
S1U_PORT = 2152
TUN_ADDRESS = "10.45.0.1/16"  # of no slot: these begin at 10.45.0.2
LONGEST = 65_535
BUFFER = 4 << 20

SO_SNDBUFFORCE, SO_RCVBUFFORCE = 32, 33  # <asm-generic/socket.h>
TUNSETIFF, IFF_TUN, IFF_NO_PI = 0x400454CA, 0x0001, 0x1000  # <linux/if_tun.h>


class Edge:
    """One side of the gateway; `kind` is that of the lines that its packets become."""

    kind = b""

    def __init__(self) -> None:
        self.waiting: collections.deque[tuple[bytes, Any]] = collections.deque()
        self.counts: collections.Counter[str] = collections.Counter()

    def fileno(self) -> int:
        raise NotImplementedError

    def take(self) -> tuple[bytes, Any]:
        """One packet and its source, or BlockingIOError."""
        raise NotImplementedError

    def put(self, octets: bytes, address: Any) -> None:
        """Hands one packet to the kernel, or an OSError."""
        raise NotImplementedError

    def receive(self) -> tuple[bytes, Any] | None:
        """The next packet that is there and its source; None where there is none."""
        while True:
            try:
                octets, source = self.take()
            except BlockingIOError:
                return None
            except OSError as fault:
                self.count(fault)
                return None
            if octets:
                return octets, source
            self.counts["received empty"] += 1  # no octets are no line

    def send(self, octets: bytes, address: Any) -> None:
        """Sends a packet, behind those that wait."""
        if self.waiting:
            self.waiting.append((octets, address))
            return
        try:
            self.put(octets, address)
        except BlockingIOError:
            self.counts["waited"] += 1
            self.waiting.append((octets, address))
        except OSError as fault:
            self.count(fault)

    def send_waiting(self) -> None:
        """Sends what waits, as far as there is room."""
        while self.waiting:
            octets, address = self.waiting[0]
            try:
                self.put(octets, address)
            except BlockingIOError:
                return
            except OSError as fault:
                self.count(fault)
            self.waiting.popleft()

    def count(self, fault: OSError) -> None:
        self.counts["lost " + errno.errorcode.get(fault.errno or 0, "unknown")] += 1

    def lost_by_kernel(self) -> int:
        """How many packets the kernel dropped, as this edge wasn't read fast enough."""
        return 0


class Udp(Edge):
    """A socket on the gateway's address."""

    def __init__(self, kind: bytes, port: int) -> None:
        super().__init__()
        self.kind, self.port = kind, port
        self.socket = socket.socket(socket.AF_INET, socket.SOCK_DGRAM)
        for forced, asked in ((SO_RCVBUFFORCE, socket.SO_RCVBUF), (SO_SNDBUFFORCE, socket.SO_SNDBUF)):
            try:
                self.socket.setsockopt(socket.SOL_SOCKET, forced, BUFFER)
            except PermissionError:
                self.socket.setsockopt(socket.SOL_SOCKET, asked, BUFFER)
        self.socket.setblocking(False)
        try:
            self.socket.bind((GATEWAY, port))
        except OSError as fault:
            raise EdgeFault(f"UDP port {port} of {GATEWAY} can't be had: {fault.strerror}") from fault

    def fileno(self) -> int:
        return self.socket.fileno()

    def take(self) -> tuple[bytes, Any]:
        return self.socket.recvfrom(LONGEST)

    def put(self, octets: bytes, address: Any) -> None:
        self.socket.sendto(octets, address)

    def lost_by_kernel(self) -> int:
        """The column `drops` of this port in /proc/net/udp."""
        with open("/proc/net/udp", encoding="ascii") as table:
            for fields in map(str.split, list(table)[1:]):
                if int(fields[1].split(":")[1], 16) == self.port:
                    return int(fields[-1])
        return 0


class Tun(Edge):
    """A TUN device: what is written arrives from the subscribers, what is read goes to them."""

    kind = lines.SGI

    def __init__(self, name: str, mtu: int) -> None:
        super().__init__()
        self.name = name
        try:
            self.device = os.open("/dev/net/tun", os.O_RDWR | os.O_NONBLOCK)
            fcntl.ioctl(self.device, TUNSETIFF, struct.pack("16sH22x", name.encode(), IFF_TUN | IFF_NO_PI))
        except OSError as fault:
            raise EdgeFault(
                f"the TUN device {name} can't be had: {fault.strerror} (root, or CAP_NET_ADMIN, makes one)"
            ) from fault
        for words in (
            ["addr", "add", TUN_ADDRESS, "dev", name],
            ["link", "set", name, "up", "mtu", str(mtu), "txqueuelen", "2000"],
        ):
            try:
                ran = subprocess.run(["ip", *words], capture_output=True, text=True)
            except FileNotFoundError as fault:
                raise EdgeFault("ip isn't found (Debian's package iproute2)") from fault
            if ran.returncode:
                raise EdgeFault(f"ip {' '.join(words)}: {ran.stderr.strip()}")

    def fileno(self) -> int:
        return self.device

    def take(self) -> tuple[bytes, Any]:
        return os.read(self.device, LONGEST), None

    def put(self, octets: bytes, address: Any) -> None:
        os.write(self.device, octets)

    def lost_by_kernel(self) -> int:
        with open(f"/sys/class/net/{self.name}/statistics/tx_dropped", encoding="ascii") as count:
            return int(count.read())


class Operator(Edge):
    """A local socket: each datagram has an instruction a line, and each of them is answered to its sender."""

    kind = lines.OPERATOR

    def __init__(self, path: str) -> None:
        super().__init__()
        self.path = path
        self.socket = socket.socket(socket.AF_UNIX, socket.SOCK_DGRAM | socket.SOCK_NONBLOCK)
        try:
            if os.path.exists(path) and not os.path.isfile(path):
                os.unlink(path)  # of a shell that was killed
            self.socket.bind(path)
            os.chmod(path, 0o600)
        except OSError as fault:
            raise EdgeFault(f"the operator's socket {path} can't be had: {fault.strerror}") from fault

    def fileno(self) -> int:
        return self.socket.fileno()

    def take(self) -> tuple[bytes, Any]:
        return self.socket.recvfrom(1 << 18)

    def put(self, octets: bytes, address: Any) -> None:
        """Answers an operator; one that doesn't read loses answers, as packets don't wait for him."""
        if address:
            try:
                self.socket.sendto(octets, address)
            except BlockingIOError as fault:
                raise OSError(errno.ENOBUFS, "the operator doesn't read") from fault

    def close(self) -> None:
        self.socket.close()
        if os.path.exists(self.path):
            os.unlink(self.path)
