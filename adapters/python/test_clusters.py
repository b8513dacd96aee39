"""Tests of clusters.py: python3 -m unittest test_clusters, in this folder.

What is read from a machine is tested everywhere. The rest needs root, iproute2 and iptables, and makes network
namespaces with names of its own. What a machine lacks is skipped, with the reason.
"""

import contextlib
import os
import pathlib
import re
import shutil
import socket
import subprocess
import sys
import tempfile
import time
import unittest
from collections.abc import Sequence
from typing import Any

import clusters
from clusters import Machines, Namespaces, Process, Servers
from jeprun import Cells, LinkCell, NodeCell, Settings, Unsupported

PYTHON = [sys.executable, "-I", "-S"]
# Has a child in a session of its own, writes what it is sent, and tells its clock to whoever connects.
SERVER = """
import socket, subprocess, threading, time
subprocess.Popen(["sleep", "1000"], start_new_session=True)
datagrams, connections = socket.socket(socket.AF_INET, socket.SOCK_DGRAM), socket.create_server(("", 9000))
datagrams.bind(("", 9000))
def tell():
    while True:
        with connections.accept()[0] as connection: connection.sendall(repr(time.time()).encode())
threading.Thread(target=tell, daemon=True).start()
while True: print(datagrams.recv(100).decode(), time.time(), flush=True)
"""
SEND = """
import socket, sys, time
datagram = f"{sys.argv[2]} {time.time()}".encode()
socket.socket(socket.AF_INET, socket.SOCK_DGRAM).sendto(datagram, (sys.argv[1], 9000))
"""
HEALTHY: Cells = ({}, {})
IS_ROOT = os.geteuid() == 0 and all(map(shutil.which, clusters.PROGRAMS))
needs_root = unittest.skipUnless(IS_ROOT, f"this needs root, and {' '.join(clusters.PROGRAMS)}")


def settings_of(*schedule: str, needs: Sequence[str] = ("cut", "loss", "paused", "killed")) -> Settings:
    start = '{:nodes ["n1" "n2"]}'
    return Settings({"start": start, "schedule": list(schedule)}, ["n1", "n2"], HEALTHY, frozenset(needs))


def stat(pid: int, name: str, state: str, parent: int, session: int, born: int) -> str:
    """A line of /proc/PID/stat: the fields 1 to 4, 6 and 22 are what is asked for, the others are 0 here."""
    return f"{pid} ({name}) {state} {parent} 0 {session} " + "0 " * 15 + f"{born} 0 0\n"


class Reading(unittest.TestCase):
    """What is read from what commands write."""

    def test_processes(self) -> None:
        text = "40 900\n" + stat(40, "a) S 1 (b c", "S", 1, 40, 900) + "41 (torn\n" + stat(7, "x", "T", 40, 7, 901)
        self.assertEqual(clusters.processes_of(text), [Process(40, "S", 1, 40, 900), Process(7, "T", 40, 7, 901)])

    def test_a_family_has_children_and_sessions(self) -> None:
        leader, child, grandchild = (
            Process(50, "S", 1, 50, 9),
            Process(40, "S", 50, 40, 10),
            Process(41, "T", 40, 41, 11),
        )
        mate, other, dead = Process(42, "S", 1, 40, 12), Process(43, "S", 1, 43, 13), Process(44, "Z", 50, 50, 14)
        everybody = [grandchild, dead, mate, other, child, leader]
        self.assertEqual(clusters.family_of(everybody, 50, 9), [leader, child, grandchild, mate])

    def test_what_a_dead_leader_leaves_is_its_family(self) -> None:
        left = Process(51, "S", 1, 50, 10)
        self.assertEqual(clusters.family_of([left, Process(60, "S", 1, 60, 1)], 50, 9), [left])
        self.assertEqual(clusters.family_of([Process(50, "Z", 1, 50, 9), left], 50, 9), [left])
        self.assertFalse(left.is_leader)

    def test_an_id_that_is_used_again_is_no_family(self) -> None:
        self.assertEqual(clusters.family_of([Process(50, "S", 1, 50, 77), Process(51, "S", 50, 50, 78)], 50, 9), [])

    def test_rules(self) -> None:
        rules = """-N JEPRUN
-A JEPRUN -s 10.77.0.1/32 -j DROP
-A JEPRUN -s 10.77.0.1/32 -m statistic --mode random --probability 0.29999999981 -j DROP
-A JEPRUN -s 10.77.0.3/32 -m statistic --mode random --probability 1.00000000000 -j DROP
-A JEPRUN -s 10.77.0.4/32 -j ACCEPT
-A OTHER -s 10.77.0.5/32 -j DROP
"""
        found = {"10.77.0.1": LinkCell(cut=True, loss=6), "10.77.0.3": LinkCell(loss=20)}
        self.assertEqual(clusters.dropped_of(rules, "JEPRUN"), found)

    def test_each_level_of_loss_is_read_back(self) -> None:
        for level in range(1, 21):
            # iptables keeps a probability as a number of 31 bits, rounded down.
            kept = int(level / 20 * 2**31) / 2**31
            rule = f"-A JEPRUN -s 10.77.0.1/32 -m statistic --mode random --probability {kept:.11f} -j DROP\n"
            self.assertEqual(clusters.dropped_of(rule, "JEPRUN"), {"10.77.0.1": LinkCell(loss=level)})

    def test_delays(self) -> None:
        queues: list[dict[str, Any]] = [
            {"kind": "htb", "handle": "7e57:", "root": True, "options": {"r2q": 10}},
            {"kind": "netem", "handle": "7e5a:", "parent": "7e57:2", "options": {"limit": 1000000}},
            {
                "kind": "netem",
                "handle": "7e5b:",
                "parent": "7e57:b",
                "options": {"limit": 1000000, "delay": {"delay": 0.05, "jitter": 0}},
            },
            {
                "kind": "netem",
                "handle": "7e5c:",
                "parent": "7e57:c",
                "options": {"limit": 1000000, "delay": {"delay": 60.0, "jitter": 0}},
            },
        ]
        filters = """filter protocol ip pref 1 u32 chain 0
filter protocol ip pref 1 u32 chain 0 fh 800: ht divisor 1
filter protocol ip pref 1 u32 chain 0 fh 800::800 order 2048 key ht 800 bkt 0 *flowid 7e57:2 not_in_hw
  match 0a4d0001/ffffffff at 16
filter protocol ip pref 1 u32 chain 0 fh 800::801 order 2049 key ht 800 bkt 0 *flowid 7e57:b not_in_hw
  match 0a4d000a/ffffffff at 16
filter protocol ip pref 1 u32 chain 0 fh 800::802 order 2050 key ht 800 bkt 0 *flowid 7e57:c not_in_hw
  match c0a80102/ffffffff at 16
"""
        self.assertEqual(clusters.delays_of(queues, filters), {"10.77.0.10": 50, "192.168.1.2": 60000})

    def test_a_refusal_names_the_entry(self) -> None:
        entries = [
            '[1 [:begin 1 [:kill ["n1"]]]]',
            '[2 [:begin 2 [:slow 5 [["n1" "n2"]]]]]',
            '[3 [:begin 3 [:fix 5 [["n1" "n2"]]]]]',
        ]
        self.assertEqual(clusters.place_of("delay", settings_of(*entries)), f"schedule, entry 1, {entries[1]}")
        self.assertEqual(clusters.place_of("clock", settings_of(*entries)), 'start, {:nodes ["n1" "n2"]}')

    def test_tags(self) -> None:
        for tag in ("", "A", "a-b", "1a", "abcdefghijk", "a b"):
            with self.assertRaises(ValueError):
                Namespaces(tag)


class Probe(Servers):
    """A cluster of the server above."""

    port = 9000

    def command(self, node: str) -> list[str]:
        return [*PYTHON, "-c", SERVER]

    def lateness(self, source: str, destination: str, seconds: float = 5.0) -> float | None:
        """How long a datagram takes from one node to another, in seconds. None: it does not arrive."""
        word = f"from-{source}-{time.monotonic_ns()}"
        self.run(source, *PYTHON, "-c", SEND, self.address(destination), word)
        found: list[tuple[str, str]] = []

        def is_there() -> bool:
            found[:] = re.findall(rf"{word} (\S+) (\S+)\n", self.run(destination, "cat", self.log(destination)))
            return bool(found)

        return float(found[0][1]) - float(found[0][0]) if clusters.wait_until(is_there, seconds) else None

    def hears(self, source: str, destination: str, seconds: float = 5.0) -> bool:
        return self.lateness(source, destination, seconds) is not None


class ProbeNamespaces(Probe, Namespaces):
    def __init__(self, tag: str = "jeptest", network: str = "10.78.0") -> None:
        Namespaces.__init__(self, tag, network)
        self.nodes = ["n1", "n2"]


class ProbeClock(ProbeNamespaces):
    def clock(self, node: str) -> float:
        with socket.create_connection((self.address(node), self.port), timeout=2) as connection:
            return float(connection.makefile().read())


class StoppedClock(ProbeNamespaces):
    def clock(self, node: str) -> float:
        return time.time()  # a server which libfaketime does not move


def remains(tag: str) -> str:
    """What there is of a tag on this machine: namespaces, links, files and processes."""
    listed = clusters.run(["ip", "netns", "list"]) + clusters.run(["ip", "-o", "link"])
    found = [line for line in listed.splitlines() if f"{tag}-" in line or f" {tag}:" in line]
    found += [str(path) for path in pathlib.Path("/var/lib").glob(tag)]
    found += [str(path) for path in pathlib.Path("/dev/shm").glob("*faketime*")]
    for path in pathlib.Path("/proc").glob("[0-9]*/cmdline"):
        with contextlib.suppress(OSError):
            if b"datagrams, connections" in path.read_bytes():
                found.append(str(path))
    return "\n".join(found)


class OnThisMachine(unittest.TestCase):
    """Has a folder for logs, and sees to it that nothing is left."""

    def setUp(self) -> None:
        folder = tempfile.TemporaryDirectory()
        self.addCleanup(folder.cleanup)
        self.folder = pathlib.Path(folder.name)
        self.addCleanup(lambda: self.assertEqual(remains("jeptest"), ""))

    def begin(self, cluster: Namespaces, settings: Settings) -> None:
        cluster.folder = self.folder
        cluster.check(settings)
        self.addCleanup(cluster.teardown)
        cluster.setup()
        self.assertEqual(cluster.read_back(), HEALTHY)


@needs_root
class InNamespaces(OnThisMachine):
    def test_links(self) -> None:
        cluster = ProbeNamespaces()
        self.begin(cluster, settings_of())
        self.assertTrue(cluster.hears("n1", "n2"))
        cluster.set_link("n1", "n2", LinkCell(cut=True))
        self.assertEqual(cluster.read_back(), ({("n1", "n2"): LinkCell(cut=True)}, {}))
        self.assertFalse(cluster.hears("n1", "n2", 0.5))
        self.assertTrue(cluster.hears("n2", "n1"))
        cluster.set_link("n1", "n2", LinkCell(cut=True, loss=7))
        cluster.set_link("n2", "n1", LinkCell(loss=20))
        both = {("n1", "n2"): LinkCell(cut=True, loss=7), ("n2", "n1"): LinkCell(loss=20)}
        self.assertEqual(cluster.read_back(), (both, {}))
        self.assertFalse(cluster.hears("n2", "n1", 0.5))
        cluster.set_link("n1", "n2", LinkCell())
        cluster.set_link("n2", "n1", LinkCell())
        self.assertEqual(cluster.read_back(), HEALTHY)
        self.assertTrue(cluster.hears("n1", "n2") and cluster.hears("n2", "n1"))

    def test_what_others_change_is_seen(self) -> None:
        cluster = ProbeNamespaces()
        self.begin(cluster, settings_of())
        cluster.set_link("n1", "n2", LinkCell(cut=True))
        cluster.run("n2", "iptables", "-w", "-F", "JEPTEST")
        self.assertEqual(cluster.read_back(), HEALTHY)
        cluster.run("n1", "iptables", "-w", "-A", "JEPTEST", "-s", "10.78.0.9", "-j", "DROP")
        self.assertEqual(cluster.read_back(), ({("10.78.0.9", "n1"): LinkCell(cut=True)}, {}))
        # Rules by which packets do not come first drop nothing.
        cluster.run("n1", "iptables", "-w", "-I", "INPUT", "-j", "ACCEPT")
        self.assertEqual(cluster.read_back(), HEALTHY)

    def test_processes(self) -> None:
        cluster = ProbeNamespaces()
        self.begin(cluster, settings_of())
        first = {p.pid for p in cluster.family("n1")}
        self.assertEqual(len(first), 2)  # the server and its child, which has a session of its own
        cluster.set_node("n1", NodeCell("paused"))
        self.assertEqual(cluster.read_back(), ({}, {"n1": NodeCell("paused")}))
        self.assertEqual([p.state for p in cluster.family("n1")], ["T", "T"])
        cluster.set_node("n1", NodeCell("running"))
        self.assertEqual(cluster.read_back(), HEALTHY)
        self.assertEqual({p.pid for p in cluster.family("n1")}, first)
        cluster.set_node("n1", NodeCell("paused"))
        cluster.set_node("n1", NodeCell("killed"))
        self.assertEqual(cluster.read_back(), ({}, {"n1": NodeCell("killed")}))
        self.assertEqual(first & {p.pid for p in cluster.processes("n1")[0] if not p.is_dead}, set())
        cluster.set_node("n1", NodeCell("killed"))
        cluster.set_node("n1", NodeCell("paused"))
        self.assertEqual(cluster.read_back(), ({}, {"n1": NodeCell("paused")}))
        cluster.set_node("n1", NodeCell("running"))
        self.assertEqual(cluster.read_back(), HEALTHY)
        self.assertTrue(clusters.wait_until(lambda: cluster.is_up("n1"), 5))

    def test_a_server_that_ends_by_itself_is_seen(self) -> None:
        cluster = ProbeNamespaces()
        self.begin(cluster, settings_of())
        leader, child = cluster.family("n2")
        os.kill(child.pid, 19)
        self.assertTrue(clusters.wait_until(lambda: cluster.read_back() == ({}, {"n2": NodeCell("paused in part")}), 5))
        os.kill(child.pid, 9)
        os.kill(leader.pid, 9)
        self.assertTrue(clusters.wait_until(lambda: cluster.read_back() == ({}, {"n2": NodeCell("killed")}), 5))
        cluster.set_node("n2", NodeCell("running"))
        self.assertEqual(cluster.read_back(), HEALTHY)

    def test_a_server_that_does_not_start_is_named(self) -> None:
        class Broken(ProbeNamespaces):
            def command(self, node: str) -> list[str]:
                return ["sh", "-c", "echo no such disk; exit 3"]

        cluster = Broken()
        cluster.folder = self.folder
        self.addCleanup(cluster.teardown)
        with self.assertRaisesRegex(
            OSError, "^n1: the server ended by itself; the last line of its log: no such disk$"
        ):
            cluster.setup()
        cluster.teardown()
        self.assertEqual(remains("jeptest"), "")

    def test_delays(self) -> None:
        cluster, entry = ProbeNamespaces(), '[1 [:begin 1 [:slow 300 [["n1" "n2"]]]]]'
        settings = settings_of(entry, needs=["delay"])
        try:
            cluster.check(settings)
        except Unsupported as error:
            self.assertEqual(str(error), f"schedule, entry 0, {entry}: the kernel can't delay packets (tc netem) on n1")
            self.skipTest("this kernel has no netem; that it is refused was tried")
        self.begin(cluster, settings)
        for delay in (300, 60000, 1, 0):
            cluster.set_link("n1", "n2", LinkCell(delay=delay))
            self.assertEqual(cluster.read_back(), ({("n1", "n2"): LinkCell(delay=delay)} if delay else {}, {}))
            if delay in (300, 0):
                self.assertAlmostEqual(cluster.lateness("n1", "n2") or 0, delay / 1000, delta=0.1)
                self.assertAlmostEqual(cluster.lateness("n2", "n1") or 0, 0, delta=0.1)

    def test_clocks(self) -> None:
        if not clusters.run(["sh", "-c", clusters.FAKETIME]):
            self.skipTest("this machine has no libfaketime")
        cluster = ProbeClock()
        self.begin(cluster, settings_of(needs=["clock"]))
        cluster.set_node("n1", NodeCell(clock=-90000))
        self.assertEqual(cluster.read_back(), ({}, {"n1": NodeCell(clock=-90000)}))
        self.assertAlmostEqual(cluster.clock("n1") - time.time(), -90, delta=0.5)
        self.assertAlmostEqual(cluster.clock("n2") - time.time(), 0, delta=0.5)
        cluster.set_node("n1", NodeCell("killed", 1500))
        self.assertEqual(cluster.read_back(), ({}, {"n1": NodeCell("killed", 1500)}))
        cluster.set_node("n1", NodeCell("running", 1500))
        self.assertTrue(clusters.wait_until(lambda: cluster.is_up("n1"), 5))
        self.assertAlmostEqual(cluster.clock("n1") - time.time(), 1.5, delta=0.5)
        cluster.set_node("n1", NodeCell())
        self.assertEqual(cluster.read_back(), HEALTHY)

    def test_clocks_that_can_not_be_moved_are_refused(self) -> None:
        entry = '[1 [:begin 1 [:bump {"n1" 5}]]]'
        settings = settings_of(entry, needs=["clock"])
        with self.assertRaises(Unsupported) as raised:
            ProbeNamespaces().check(settings)
        text = (
            f"schedule, entry 0, {entry}: this server can't be asked for its clock, so nobody could see that it moved"
        )
        self.assertEqual(str(raised.exception), text)
        if not clusters.run(["sh", "-c", clusters.FAKETIME]):
            self.skipTest("this machine has no libfaketime")
        cluster = StoppedClock()
        with self.assertRaises(Unsupported) as raised:
            self.begin(cluster, settings)
        self.assertEqual(
            str(raised.exception),
            f"schedule, entry 0, {entry}: libfaketime does not move the clock of the server on n1",
        )

    def test_teardown_in_another_process(self) -> None:
        cluster = ProbeNamespaces()
        self.begin(cluster, settings_of())
        cluster.set_link("n1", "n2", LinkCell(cut=True))
        cluster.set_node("n1", NodeCell("paused"))
        words = [sys.executable, "-c", "import test_clusters; test_clusters.ProbeNamespaces().teardown()"]
        subprocess.run(words, cwd=pathlib.Path(__file__).parent, check=True)
        self.assertIn("jeptest-n1", remains("jeptest"))  # the test goes on, so the other process leaves it alone
        assert cluster.lock
        cluster.lock.close()  # as when this process is killed
        cluster.lock = None
        subprocess.run(words, cwd=pathlib.Path(__file__).parent, check=True)
        self.assertEqual(remains("jeptest"), "")
        cluster.teardown()

    def test_setup_removes_what_is_left(self) -> None:
        cluster = ProbeNamespaces()
        self.begin(cluster, settings_of())
        cluster.set_node("n1", NodeCell("paused"))
        assert cluster.lock
        cluster.lock.close()
        cluster.lock = None
        self.begin(ProbeNamespaces(), settings_of())

    def test_a_second_test_is_refused_and_does_no_harm(self) -> None:
        cluster, second = ProbeNamespaces(), ProbeNamespaces()
        self.begin(cluster, settings_of())
        second.folder = self.folder
        with self.assertRaisesRegex(
            Unsupported, r"^another test has the network namespaces jeptest-\* of this machine$"
        ):
            second.setup()
        second.teardown()
        self.assertEqual(cluster.read_back(), HEALTHY)
        third = ProbeNamespaces("jeptestb", "10.78.0")
        third.folder = self.folder
        self.addCleanup(third.teardown)
        with self.assertRaisesRegex(
            Unsupported, r"^jeptest has an address in 10.78.0.0/24: give the cluster another network$"
        ):
            third.setup()


class Sshd(Namespaces):
    """Machines to try `Machines` on: namespaces that run sshd."""

    port = 22

    def __init__(self, keys: pathlib.Path) -> None:
        super().__init__("jepsshd", "10.79.0")
        self.keys, self.nodes = keys, ["n1", "n2"]

    def command(self, node: str) -> list[str]:
        # Without a home the shell reads no file of the user first.
        options = [
            "UsePAM=no",
            "StrictModes=no",
            "PidFile=none",
            "SetEnv=HOME=/",
            f"AuthorizedKeysFile={self.keys}/key.pub",
        ]
        return [
            "/usr/sbin/sshd",
            "-D",
            "-e",
            "-f",
            "/dev/null",
            "-h",
            f"{self.keys}/host",
            *(w for o in options for w in ("-o", o)),
        ]


class ProbeMachines(Probe, Machines):
    def __init__(self, keys: str) -> None:
        options = [
            "-i",
            f"{keys}/key",
            "-F",
            "none",
            "-o",
            f"UserKnownHostsFile={keys}/known",
            "-o",
            "StrictHostKeyChecking=no",
        ]
        hosts = {"n1": "root@10.79.0.1", "n2": "root@10.79.0.2"}
        Machines.__init__(self, hosts, options=[*options, "-o", "LogLevel=ERROR"], tag="jeptest")
        self.nodes = ["n1", "n2"]


@needs_root
@unittest.skipUnless(shutil.which("ssh-keygen") and shutil.which("/usr/sbin/sshd"), "this needs ssh and sshd")
class OnMachines(OnThisMachine):
    def setUp(self) -> None:
        super().setUp()
        for name in ("key", "host"):
            clusters.run(["ssh-keygen", "-q", "-t", "ed25519", "-N", "", "-f", str(self.folder / name)])
        privileges = pathlib.Path("/run/sshd")
        if not privileges.exists():
            privileges.mkdir()
            self.addCleanup(privileges.rmdir)
        self.machines = Sshd(self.folder)
        self.machines.folder = self.folder
        self.addCleanup(self.machines.teardown)
        self.machines.setup()

    def test_the_same_faults(self) -> None:
        cluster = ProbeMachines(str(self.folder))
        cluster.folder = self.folder / "nodes"
        cluster.folder.mkdir()
        cluster.check(settings_of())
        self.addCleanup(cluster.teardown)
        cluster.setup()
        self.assertEqual(cluster.read_back(), HEALTHY)
        cluster.set_link("n1", "n2", LinkCell(cut=True))
        cluster.set_link("n2", "n1", LinkCell(loss=6))
        self.assertEqual(cluster.read_back(), ({("n1", "n2"): LinkCell(cut=True), ("n2", "n1"): LinkCell(loss=6)}, {}))
        self.assertIn("-A JEPTEST -s 10.79.0.1/32 -j DROP", self.machines.run("n2", "iptables", "-S"))
        self.assertFalse(cluster.hears("n1", "n2", 0.5))
        cluster.set_node("n1", NodeCell("paused"))
        cluster.set_node("n2", NodeCell("killed"))
        self.assertEqual(
            cluster.read_back(), (dict(cluster.links), {"n1": NodeCell("paused"), "n2": NodeCell("killed")})
        )
        words = [
            sys.executable,
            "-c",
            f"import test_clusters; test_clusters.ProbeMachines({str(self.folder)!r}).sweep()",
        ]
        subprocess.run(words, cwd=pathlib.Path(__file__).parent, check=True)
        self.assertEqual(remains("jeptest"), "")
        for node in ("n1", "n2"):
            self.assertNotIn("JEPTEST", self.machines.run(node, "iptables", "-S"))

    def test_logs_are_fetched(self) -> None:
        cluster = ProbeMachines(str(self.folder))
        cluster.folder = self.folder / "nodes"
        cluster.folder.mkdir()
        self.addCleanup(cluster.teardown)
        cluster.setup()
        self.assertTrue(cluster.hears("n1", "n2"))
        cluster.teardown()
        self.assertIn("from-n1-", (cluster.folder / "n2.log").read_text())

    def test_a_machine_that_is_not_there_is_named(self) -> None:
        cluster = ProbeMachines(str(self.folder))
        cluster.hosts = {"n1": "root@10.79.0.1", "n2": "root@10.79.0.77"}
        cluster.options = [*cluster.options, "-o", "ConnectTimeout=1"]
        with self.assertRaisesRegex(Unsupported, "^n2: .*10.79.0.77 port 22"):
            cluster.check(settings_of())


if __name__ == "__main__":
    unittest.main()
