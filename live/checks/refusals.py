"""What the shell can't work with: privileges, cores, records, instructions, arguments."""

import pathlib
import subprocess

from checks.judging import Checks, audited
from peers.lab import LIVE, Lab
from peers.network import MOST_SECONDS, STRANGER


def stub(folder: pathlib.Path, name: str, text: str) -> str:
    """A core that isn't pepc."""
    path = folder / name
    path.write_text("#!/bin/sh\n" + text)
    path.chmod(0o755)
    return str(path)


def run(checks: Checks, lab: Lab) -> None:
    """What the shell can't work with: a line on standard error, a status, and no process left."""
    good, folder = lab.core, lab.folder
    taken = folder / "taken"
    taken.mkdir()
    (taken / "trace").touch()
    none = folder / "no-record"
    none.mkdir()
    (none / "trace").write_text("hello FENCE\n")
    wrong = folder / "wrong"
    wrong.write_text("ATTACH 001010000000001 192.0.2.2 00000909 1 1\nDROP 001010000000001 4\n")
    attached = folder / "attached"
    attached.write_text("ATTACH 001010000000001 192.0.2.2 00000909 1 1\n")
    silent = stub(folder, "silent", "cat >/dev/null\n")
    less = stub(folder, "less", "[ $1 = solo ] && { echo 'N 2 fence'; cat >/dev/null; }\n")
    noise = stub(folder, "noise", "echo 'X 1'; cat >/dev/null\n")
    ending = stub(folder, "ending", "exit 3\n")
    gateway = str(LIVE / "gateway")
    cases = [
        (
            "a TUN without privilege",
            ["setpriv", "--reuid=65534", "--clear-groups", "--bounding-set=-all", gateway, "--core", good],
            3,
            "TUN device",
        ),
        ("no program as core", [gateway, "--core", str(folder / "none")], 4, "can't be started"),
        ("a core that ends", [gateway, "--core", ending], 4, "the core ended"),
        (
            "a core that leaves a line out",
            [gateway, "--core", less, "--instructions", str(attached)],
            5,
            "says nothing of line 1",
        ),
        ("a core that never says if", [gateway, "--core", silent, "--instructions", str(attached)], 4, "doesn't say"),
        ("a core that says what is no entry", [gateway, "--core", noise], 5, "no entry"),
        ("a record that is there", [gateway, "--core", good, "--record", str(taken)], 6, "has a record already"),
        (
            "a record that isn't there",
            [gateway, "--core", good, "--resume", str(folder / "nothing")],
            6,
            "has no record",
        ),
        ("a record that is none", [gateway, "--core", good, "--resume", str(none)], 6, "isn't a record"),
        ("no program, with instructions", [gateway, "--core", "/none", "--instructions", str(wrong)], 4, "can't be"),
        ("instructions that aren't some", [gateway, "--core", good, "--instructions", str(wrong)], 7, "line 2"),
        ("no option of it", [gateway, "--cores"], 2, "usage"),
        ("an audit of no record", [gateway, "--core", good, "--audited"], 2, "--audited"),
    ]
    for what, words, wanted, part in cases:
        ran = lab.network.run("gw", *words)
        checks.expect(
            f"{what}: status {wanted}",
            ran.returncode == wanted and part in ran.stderr and "Traceback" not in ran.stderr,
            f"{ran.returncode} {ran.stderr.strip()[-100:]}",
        )
    running = lab.gateway("--core", silent)
    second = lab.network.run("gw", gateway, "--core", good)
    checks.expect(
        "a second gateway: status 3", second.returncode == 3 and "can't be had" in second.stderr, second.stderr.strip()
    )
    lab.network.run("enb", str(LIVE / "peers" / "probe"), "--address", STRANGER, "2152", "00")
    status, said = running.wait(MOST_SECONDS), running.stderr.read().strip()
    checks.expect("a core that says nothing: status 5", status == 5 and "says nothing of line 1 for" in said, said)
    full(checks, lab)


def full(checks: Checks, lab: Lab) -> None:
    """A record that can't grow ends the shell, and is gone on with when there is room."""
    record = lab.folder / "full"
    words = lab.network.within(
        "gw", "prlimit", "--fsize=20000", str(LIVE / "gateway"), "--core", lab.core, "--record", str(record)
    )
    process = subprocess.Popen(words, stdout=subprocess.PIPE, stderr=subprocess.PIPE, text=True)
    lab.processes.append(process)
    process.stdout.readline()
    probe = [str(LIVE / "peers" / "probe"), "--address", STRANGER, "2152", *["1400*45"] * 30]
    lab.network.run("enb", *probe)
    said = process.stderr.read().strip()
    checks.expect("a record that can't grow: status 6", process.wait(MOST_SECONDS) == 6 and "can't be written" in said, said)
    gateway = lab.gateway("--resume", str(record))
    lab.network.run("enb", *probe)
    gateway.terminate()
    checks.expect("it is gone on with where there is room", gateway.wait(MOST_SECONDS) == 0)
    audited(checks, lab, record, "it")
