"""Clusters for `jeprun.run_test`: `Namespaces`, whose nodes are network namespaces of this machine, and `Machines`,
whose nodes are machines that `ssh` reaches.

A test of a database derives a class from one of the two. By `command` it says how the server of a node is started,
and by `port` or `is_up` when it is up. Links are cut and lose packets by iptables on the receiver, and are slow by tc
on the sender. Servers are paused and killed by signals. Their clocks are moved by libfaketime. `read_back` reads all
of it from the machines again.

Both classes run the same commands, as root, and differ in how a command is run on a node: by `ip netns exec` or by
`ssh`.
"""

import contextlib
import fcntl
import json
import os
import pathlib
import re
import shlex
import shutil
import signal
import socket
import subprocess
import time
from collections.abc import Callable, Iterable, Mapping, Sequence
from dataclasses import dataclass, replace
from typing import IO, Any

import jeprun
from jeprun import Cells, LinkCell, NodeCell, Settings, Unsupported

PATIENCE = 20.0  # seconds that a command or a signal may take
PAUSE = 0.02  # seconds between two looks at what is waited for
QUEUES = "7e57:"  # the handle by which the queues of a test are known
FREE_QUEUE = "netem limit 1000000 delay"
NO_LINK, NO_NODE = LinkCell(), NodeCell()  # what is healthy

PROGRAMS = ["ip", "iptables", "iptables-restore", "tc", "setsid", "unshare"]

# Each script has its arguments in $1 and so on.
MISSING = f"""[ "$(id -u)" = 0 ] || echo "to be root"
for p in {" ".join(PROGRAMS)}; do command -v $p > /dev/null || echo "the program $p"; done"""
# Keeps where a server is in /proc: its process id, and when it was born, since ids are used again. Then it becomes
# the server. Shared memory is the server's own, so that none is left of one that is killed.
START = """mount -t tmpfs tmpfs /dev/shm
echo "$$ $(cut -d ' ' -f 22 /proc/$$/stat)" > "$1/pid.new" && mv "$1/pid.new" "$1/pid"
cd "$1/data" && log=$2 && shift 2 && exec "$@" >> "$log" 2>&1"""
# What stays behind holds nothing of the terminal.
QUIETLY = 'exec "$@" < /dev/null > /dev/null 2>&1'
FETCH = 'cat "$1" 2> /dev/null; true'
REMOVE = 'rm -rf "$1"; rmdir "${1%/*}" 2> /dev/null; ! [ -e "$1" ]'
LIST = 'cat "$1" /proc/[0-9]*/stat 2> /dev/null; true'
# One of the processes may be gone by now, so whether all could be reached says nothing.
SEND = 'kill -s "$@" 2> /dev/null; true'
FAKETIME = "ls /usr/lib/*/faketime/libfaketimeMT.so.1 /usr/lib64/faketime/libfaketimeMT.so.1 2> /dev/null | head -n 1"
# A file that is replaced is never read half written.
SET_CLOCK = 'echo "$2" > "$1.new" && mv "$1.new" "$1"'
# Removes rules and queues, as often as they are there, and fails where some are left.
UNSET = """while iptables -w -D INPUT -j "$1" 2> /dev/null; do :; done
iptables -w -F "$1" 2> /dev/null; iptables -w -X "$1" 2> /dev/null
tc qdisc show dev "$3" | grep -q "^qdisc htb $2" && tc qdisc del dev "$3" root
! { iptables -w -S | grep -e "-[NAj] $1\\b" || tc qdisc show dev "$3" | grep "^qdisc htb $2"; } >&2"""


# --- what is on a machine, read from what its commands write


@dataclass(frozen=True)
class Process:
    """A process as /proc has it."""

    pid: int
    state: str
    parent: int
    session: int
    born: int

    @property
    def is_dead(self) -> bool:
        return self.state in "ZX"

    @property
    def is_stopped(self) -> bool:
        return self.state == "T"

    @property
    def is_leader(self) -> bool:
        return self.pid == self.session


def processes_of(text: str) -> list[Process]:
    """The processes of a machine, from the lines of /proc/PID/stat, whose names may have gaps and parentheses."""
    found = []
    for line in text.splitlines():
        pid, _, rest = line.partition(" (")
        fields = rest.rpartition(") ")[2].split()
        if pid.isdigit() and len(fields) > 19 and fields[19].isdigit():
            found.append(Process(int(pid), fields[0], int(fields[1]), int(fields[3]), int(fields[19])))
    return found


def family_of(processes: list[Process], pid: int, born: int) -> list[Process]:
    """The living processes of a server. The first one is the leader of its session, where that one lives.

    Of the family are the children of a member, and whoever is in the session of one: some servers make a session for
    each child.
    """
    if any(p.pid == pid and p.born != born for p in processes):
        return []  # the id is that of another process by now
    family: dict[int, Process] = {}
    more = {p.pid: p for p in processes if p.pid == pid or p.session == pid}
    while more:
        family |= more
        sessions = {p.session for p in family.values()}
        more = {p.pid: p for p in processes if p.pid not in family and (p.parent in family or p.session in sessions)}
    return sorted((p for p in family.values() if not p.is_dead), key=lambda p: (p.pid != pid, p.pid))


def dropped_of(rules: str, chain: str) -> dict[str, LinkCell]:
    """What `iptables -S` says of a chain: which addresses are cut off, and which ones lose packets."""
    found: dict[str, LinkCell] = {}
    pattern = re.compile(rf"-A {chain} -s (\S+?)(?:/32)?(?: -m statistic --mode random --probability (\S+))? -j DROP")
    for rule in filter(None, map(pattern.fullmatch, rules.splitlines())):
        cell = found.get(rule[1], NO_LINK)
        found[rule[1]] = replace(cell, loss=round(float(rule[2]) * 20)) if rule[2] else replace(cell, cut=True)
    return found


def delays_of(queues: list[dict[str, Any]], filters: str) -> dict[str, int]:
    """What `tc -j qdisc show` and `tc filter show` say: by how many milliseconds packets to an address are late."""
    slow = {
        q["parent"]: q["options"]["delay"]["delay"] for q in queues if q["kind"] == "netem" and "delay" in q["options"]
    }
    bands = re.findall(r"flowid (\S+)[^\n]*\n\s*match ([0-9a-f]{8})/ffffffff at 16", filters)
    late = {socket.inet_ntoa(bytes.fromhex(address)): round(slow.get(band, 0) * 1000) for band, address in bands}
    return {address: milliseconds for address, milliseconds in late.items() if milliseconds}


def place_of(need: str, settings: Settings) -> str:
    """Where settings first need something, as `delay`: the words that a refusal begins with."""
    for place, entry in enumerate(settings.table.get("schedule", [])):
        if any(jeprun.CELL_OF_FAULT.get(fault) == need for fault in jeprun.FAULT.findall(entry)):
            return f"schedule, entry {place}, {entry}"
    return f"start, {settings.table['start']}"


def run(words: Sequence[str], given: str = "", what: str | None = None) -> str:
    """Runs a command, and gives what it wrote. Ctrl-C does not reach it, so that it does not end half-way."""
    what = (what or shlex.join(words))[:200]
    try:
        done = subprocess.run(
            words,
            input=given,
            capture_output=True,
            encoding="utf-8",
            errors="replace",
            timeout=PATIENCE,
            start_new_session=True,
            check=False,
        )
    except subprocess.TimeoutExpired:
        raise OSError(f"{what}: no end after {PATIENCE:.0f} s") from None
    if done.returncode:
        raise OSError(f"{what}: {done.stderr.strip()[-300:] or f'status {done.returncode}'}")
    return done.stdout


def wait_until(is_so: Callable[[], bool], seconds: float) -> bool:
    """Asks until something is so, at most for so long, and says whether it is."""
    end = time.monotonic() + seconds
    while not is_so():
        if time.monotonic() > end:
            return False
        time.sleep(PAUSE)
    return True


def try_each(nodes: Iterable[str], action: Callable[[str], object]) -> None:
    """Does something on each node, also where it failed on an earlier one."""
    errors = []
    for node in nodes:
        try:
            action(node)
        except OSError as error:
            errors.append(str(error))
    if errors:
        raise OSError("; ".join(errors))


# --- clusters


class Servers(jeprun.Cluster):
    """What `Namespaces` and `Machines` have in common."""

    # What a test of a database says of its server.

    port = 0
    user = "root"  # who the server runs as
    start_timeout = 60.0
    clock_tolerance = 0.25  # seconds by which the answer of `clock` may be off

    def command(self, node: str) -> list[str]:
        """The words that start the server of a node, in the foreground: one that goes away counts as killed."""
        raise NotImplementedError

    def environment(self, node: str) -> dict[str, str]:
        """Variables of the server's environment, beside those that are there."""
        return {}

    def prepare(self, node: str) -> None:
        """Makes what the server needs before it is started first, mostly in `home(node)`."""

    def is_up(self, node: str) -> bool:
        """Whether the server of a node can be used. If not overridden: whether it takes connections at `port`."""
        with contextlib.suppress(OSError), socket.create_connection((self.address(node), self.port), timeout=1):
            return True
        return False

    def clock(self, node: str) -> float:
        """The clock of a running server, in seconds since 1970, as the server itself tells it; OSError where it can't
        be asked now. Where this is not overridden, no clock can be moved, since nobody would know whether it did.
        """
        raise NotImplementedError

    # What a test may use.

    def address(self, node: str) -> str:
        """The IPv4 address of a node."""
        raise NotImplementedError

    def run(self, node: str, *words: str, given: str = "") -> str:
        """Runs a command on a node as root, and gives what it wrote."""
        return run(self.words(node, words), given, f"{node}: {shlex.join(words)}")

    def script(self, node: str, script: str, *arguments: str) -> str:
        """Runs a script of the shell on a node, whose arguments are $1 and so on there."""
        return self.run(node, "sh", "-c", script, "sh", *arguments)

    def as_user(self) -> list[str]:
        """The words before a command that is run as `user`."""
        named = ["setpriv", f"--reuid={self.user}", f"--regid={self.user}", "--init-groups"]
        return [] if self.user == "root" else named

    def home(self, node: str) -> str:
        """A folder on a node where its server may keep data. It is empty before a test, and is removed behind it."""
        return f"{self.place(node)}/data"

    # What the two clusters differ in.

    def words(self, node: str, words: Sequence[str]) -> list[str]:
        """The command of this machine that runs a command on a node."""
        raise NotImplementedError

    def outside(self, node: str, words: Sequence[str]) -> list[str]:
        """The same before the node is there."""
        return self.words(node, words)

    def build(self) -> None:
        """Makes the nodes, without servers."""

    def sweep(self) -> None:
        """Removes all that a test of this tag has made, going by what is there alone."""
        raise NotImplementedError

    def log(self, node: str) -> str:
        """The file on a node that gets what its server writes to its standard output and error."""
        return f"{self.place(node)}/log"

    # What `run_test` calls.

    def __init__(self, tag: str) -> None:
        if not re.fullmatch(r"[a-z][a-z0-9]{0,9}", tag):
            raise ValueError(f"{tag!r} is no tag: one to ten small letters and digits, the first a letter")
        self.tag, self.chain = tag, tag.upper()
        self.needs: dict[str, str] = {}
        self.links: dict[tuple[str, str], LinkCell] = {}
        self.clocks: dict[str, int] = {}
        self.preloaded: dict[str, str] = {}

    def check(self, settings: Settings) -> None:
        self.needs = {need: place_of(need, settings) for need in settings.needs}
        if "clock" in self.needs and type(self).clock is Servers.clock:
            why = "this server can't be asked for its clock, so nobody could see that it moved"
            raise Unsupported(f"{self.needs['clock']}: {why}")
        rule = "iptables -w -A INPUT -m statistic --mode random --probability 0.5 -j DROP"
        queue = f"tc qdisc add dev lo root {FREE_QUEUE} 1ms"
        for node in self.nodes:
            try:
                missing = run(self.outside(node, ["sh", "-c", MISSING]), what=node).splitlines()
            except OSError as error:
                raise Unsupported(str(error)) from error
            if missing:
                raise Unsupported(f"{node} needs {', '.join(missing)}")
            self.attempt(node, "loss", rule, "the kernel can't lose packets (iptables -m statistic)")
            self.attempt(node, "delay", queue, "the kernel can't delay packets (tc netem)")
            self.attempt(node, "clock", f'[ "$({FAKETIME})" ]', "libfaketime is not there")

    def attempt(self, node: str, need: str, command: str, what: str) -> None:
        """Tries what a test needs. The network namespace of the trial has no name, and goes with it."""
        if need in self.needs:
            try:
                run(self.outside(node, ["unshare", "--net", "sh", "-c", f"ip link set lo up && {command}"]))
            except OSError as error:
                raise Unsupported(f"{self.needs[need]}: {what} on {node}") from error

    def setup(self) -> None:
        self.sweep()
        self.build()
        for node in self.nodes:
            self.run(node, "install", "-d", "-o", self.user, self.home(node))
            self.restore(node, [f"-I INPUT -j {self.chain}\n"])
            if "delay" in self.needs:
                self.make_queues(node)
            if "clock" in self.needs:
                self.preloaded[node] = self.script(node, FAKETIME).strip()
                self.set_clock(node, 0)
            self.prepare(node)
        for node in self.nodes:
            self.start(node)
        for node in self.nodes:
            self.wait_for(node)
        for node in self.preloaded:
            self.try_clock(node)

    def teardown(self) -> None:
        self.sweep()

    def set_link(self, source: str, destination: str, cell: LinkCell) -> None:
        self.links[source, destination] = cell
        self.write_rules(destination)
        if "delay" in self.needs:
            self.write_delay(source, destination, cell.delay)

    def set_node(self, node: str, cell: NodeCell) -> None:
        if node in self.preloaded:
            self.set_clock(node, cell.clock)
        if cell.process == "killed":
            self.kill(node)
            return
        family = self.family(node)
        if not family or not family[0].is_leader:
            self.kill(node)
            self.start(node)
        if cell.process == "paused":
            self.signal(node, "STOP", lambda family: all(p.is_stopped for p in family))
        else:
            self.signal(node, "CONT", lambda family: not any(p.is_stopped for p in family))

    def read_back(self) -> Cells | None:
        links: dict[tuple[str, str], LinkCell] = {}
        names = {self.address(node): node for node in self.nodes}
        for node in self.nodes:
            for address, dropped in self.read_rules(node).items():
                link = names.get(address, address), node
                links[link] = replace(dropped, delay=links.get(link, NO_LINK).delay)
            for address, delay in self.read_delays(node).items():
                link = node, names.get(address, address)
                links[link] = replace(links.get(link, NO_LINK), delay=delay)
        nodes = {node: self.read_node(node) for node in self.nodes}
        return links, {node: cell for node, cell in nodes.items() if cell != NO_NODE}

    # Links.

    def restore(self, node: str, lines: list[str]) -> None:
        """Makes the rules of a node's chain anew, all at once."""
        rules = f"*filter\n:{self.chain} - [0:0]\n{''.join(lines)}COMMIT\n"
        self.run(node, "iptables-restore", "-w", "--noflush", given=rules)

    def write_rules(self, node: str) -> None:
        """Makes the rules of a receiver what they have to be."""
        rules = []
        for (source, destination), cell in self.links.items():
            rule = f"-A {self.chain} -s {self.address(source)}"
            if destination == node and cell.cut:
                rules.append(f"{rule} -j DROP\n")
            if destination == node and cell.loss:
                rules.append(f"{rule} -m statistic --mode random --probability {cell.loss / 20} -j DROP\n")
        self.restore(node, rules)

    def read_rules(self, node: str) -> dict[str, LinkCell]:
        """What a receiver drops: nothing, where its packets do not come by the rules of the test first."""
        rules = self.run(node, "iptables", "-w", "-S")
        first = [line for line in rules.splitlines() if line.startswith("-A INPUT ")][:1]
        return dropped_of(rules, self.chain) if first == [f"-A INPUT -j {self.chain}"] else {}

    def device(self, node: str) -> str:
        """The interface by which a node reaches the others."""
        other = next((self.address(other) for other in self.nodes if other != node), "127.0.0.1")
        return str(re.findall(r" dev (\S+)", self.run(node, "ip", "-o", "route", "get", other))[0])

    def band(self, destination: str) -> tuple[str, str]:
        """The class of packets to a node, and the handle of its queue. The class 1 is that of all other packets."""
        number = self.nodes.index(destination) + 2
        return f"{QUEUES}{number:x}", f"{0x7E58 + number:x}:"

    def make_queues(self, node: str) -> None:
        """Gives a sender a queue for each other node, which stays: one that is removed loses what is in it."""
        device, rate = self.device(node), "htb rate 10gbit quantum 60000"
        root = f"dev {device} parent {QUEUES}"
        lines = [
            f"qdisc add dev {device} root handle {QUEUES} htb default 1",
            f"class add {root} classid {QUEUES}1 {rate}",
        ]
        for other in self.nodes:
            if other != node:
                parent, handle = self.band(other)
                lines.append(f"class add {root} classid {parent} {rate}")
                lines.append(f"qdisc add dev {device} parent {parent} handle {handle} {FREE_QUEUE} 0ms")
                lines.append(
                    f"filter add {root} protocol ip prio 1 u32 match ip dst {self.address(other)}/32 flowid {parent}"
                )
        self.run(node, "tc", "-batch", "-", given="\n".join(lines) + "\n")

    def write_delay(self, source: str, destination: str, milliseconds: int) -> None:
        """Makes the delay of a sender's queue what it has to be."""
        parent, handle = self.band(destination)
        queue = f"dev {self.device(source)} parent {parent} handle {handle}"
        self.run(source, *f"tc qdisc change {queue} {FREE_QUEUE} {milliseconds}ms".split())

    def read_delays(self, node: str) -> dict[str, int]:
        if "delay" not in self.needs:
            return {}
        device = self.device(node)
        queues = json.loads(self.run(node, "tc", "-j", "qdisc", "show", "dev", device))
        return delays_of(queues, self.run(node, "tc", "filter", "show", "dev", device, "parent", QUEUES))

    # Processes.

    def place(self, node: str) -> str:
        """The folder on a node that has all that a test keeps there."""
        return f"/var/lib/{self.tag}/{node}"

    def start(self, node: str) -> None:
        """Starts the server of a node, and returns when its program was begun."""
        variables = [f"{name}={value}" for name, value in (self.environment(node) | self.fake_time(node)).items()]
        place = self.place(node)
        self.run(node, "rm", "-f", f"{place}/pid")
        # The second setsid waits for the server. Where the first process of a machine is slow to do that, a server
        # that was killed stays in /proc for a while, and some servers then take it for alive.
        server = [*self.as_user(), "env", *variables, *self.command(node)]
        words = ["setsid", "--fork", "--wait", "unshare", "--ipc", "--mount", "sh", "-c", START, "sh", place]
        self.run(node, "setsid", "--fork", "sh", "-c", QUIETLY, "sh", *words, self.log(node), *server)
        if not wait_until(lambda: self.processes(node)[1] > 0, PATIENCE):
            raise OSError(f"{node}: the server was not begun within {PATIENCE:.0f} s")

    def processes(self, node: str) -> tuple[list[Process], int, int]:
        """The processes of a node's machine, and where its server is in /proc: id 0 where none was started."""
        text = self.script(node, LIST, f"{self.place(node)}/pid")
        found = re.match(r"(\d+) (\d+)\n", text)
        return processes_of(text), int(found[1]) if found else 0, int(found[2]) if found else 0

    def family(self, node: str) -> list[Process]:
        """The living processes of a node's server."""
        processes, pid, born = self.processes(node)
        return family_of(processes, pid, born) if pid else []

    def signal(self, node: str, name: str, is_done: Callable[[list[Process]], bool]) -> list[Process]:
        """Sends a signal to a server's processes until all have followed it, new ones too. Gives them."""
        family: list[Process] = []

        def is_so() -> bool:
            family[:] = self.family(node)
            if not is_done(family):
                self.script(node, SEND, name, *(str(p.pid) for p in family))
                return False
            return True

        if not wait_until(is_so, PATIENCE):
            raise OSError(f"{node}: the server did not follow SIG{name} within {PATIENCE:.0f} s")
        return family

    def kill(self, node: str) -> None:
        """Kills a server. All its processes are stopped first, so that none sees another one die, or starts one."""
        family = self.signal(node, "STOP", lambda family: all(p.is_stopped for p in family))
        if not family:
            return
        self.script(node, SEND, "KILL", *(str(p.pid) for p in family))
        known = {(p.pid, p.born) for p in family}

        def is_left(p: Process) -> bool:
            return (p.pid, p.born) in known and (p.pid == family[0].pid or not p.is_dead)

        if not wait_until(lambda: not any(map(is_left, self.processes(node)[0])), PATIENCE):
            raise OSError(f"{node}: the server did not follow SIGKILL within {PATIENCE:.0f} s")

    def wait_for(self, node: str) -> None:
        """Waits until a server that was just started is up."""
        if wait_until(lambda: self.is_up(node) or not self.family(node), self.start_timeout) and self.family(node):
            return
        what = f"is not up after {self.start_timeout:.0f} s" if self.family(node) else "ended by itself"
        how = f" with libfaketime, for {self.needs['clock']}" if node in self.preloaded else ""
        said = self.run(node, "tail", "-n", "1", self.log(node)).strip()
        raise OSError(f"{node}: the server {what}{how}; the last line of its log: {said[:300]}")

    def read_node(self, node: str) -> NodeCell:
        """The process state of a node's server, and its clock: what was told, where it does not run to be asked."""
        family, told = self.family(node), self.clocks.get(node, 0)
        stopped = sum(p.is_stopped for p in family)
        if not family:
            return NodeCell("killed", told)
        if not family[0].is_leader:
            return NodeCell("killed in part", told)
        if stopped:
            return NodeCell("paused" if stopped == len(family) else "paused in part", told)
        return NodeCell("running", told if node not in self.preloaded else self.read_clock(node))

    # Clocks.

    def fake_time(self, node: str) -> dict[str, str]:
        """The variables by which libfaketime moves the clock of a server."""
        if node not in self.preloaded:
            return {}
        file = f"{self.place(node)}/clock"
        named = {"LD_PRELOAD": self.preloaded[node], "FAKETIME_TIMESTAMP_FILE": file}
        return named | {"FAKETIME_NO_CACHE": "1", "FAKETIME_DONT_FAKE_MONOTONIC": "1"}

    def set_clock(self, node: str, milliseconds: int) -> None:
        """Moves the clock of a server."""
        self.script(node, SET_CLOCK, f"{self.place(node)}/clock", f"{milliseconds / 1000:+.3f}")
        self.clocks[node] = milliseconds

    def read_clock(self, node: str) -> int:
        """By how many milliseconds a running server's clock is ahead: what was told, within the tolerance."""
        told = self.clocks[node]
        before = time.time()
        try:
            said = self.clock(node)
        except OSError:  # it is not up yet; its clock will be what its file says
            return told
        earliest, latest = said - time.time() - self.clock_tolerance, said - before + self.clock_tolerance
        return told if earliest <= told / 1000 <= latest else round((said - before) * 1000)

    def try_clock(self, node: str) -> None:
        """Refuses a server whose clock does not move, before the test begins."""
        for milliseconds in (5000, 0):
            self.set_clock(node, milliseconds)
            self.clock(node)  # it is up, so this has to work
            if not wait_until(lambda: self.read_clock(node) == self.clocks[node], 2):
                raise Unsupported(f"{self.needs['clock']}: libfaketime does not move the clock of the server on {node}")


class Namespaces(Servers):
    """Nodes that are network namespaces of this machine, on a bridge.

    Their names have the tag, and their addresses are in a /24 network. Two tests with one tag can't run at the same
    time: the second one is refused. Clients run outside, and reach each node whatever links are cut.
    """

    def __init__(self, tag: str = "jeprun", network: str = "10.77.0") -> None:
        super().__init__(tag)
        self.network = network
        self.lock: IO[str] | None = None

    def address(self, node: str) -> str:
        return f"{self.network}.{self.nodes.index(node) + 1}"

    def words(self, node: str, words: Sequence[str]) -> list[str]:
        return ["ip", "netns", "exec", f"{self.tag}-{node}", *words]

    def outside(self, node: str, words: Sequence[str]) -> list[str]:
        return list(words)

    def log(self, node: str) -> str:
        return str(self.folder.resolve() / f"{node}.log")

    def check(self, settings: Settings) -> None:
        self.take_lock()
        try:
            super().check(settings)
        except Unsupported:
            self.release_lock()
            raise

    def setup(self) -> None:
        self.take_lock()
        super().setup()

    def teardown(self) -> None:
        try:
            self.take_lock()
        except Unsupported:
            return  # the other test has removed what this one left
        super().teardown()
        self.release_lock()

    def take_lock(self) -> None:
        """Takes the lock of the tag, unless this test has it. The process that guards a test inherits it."""
        if self.lock is None:
            lock = open(f"/run/{self.tag}.lock", "w", encoding="utf-8")
            try:
                fcntl.flock(lock, fcntl.LOCK_EX | fcntl.LOCK_NB)
            except OSError as error:
                lock.close()
                raise Unsupported(f"another test has the network namespaces {self.tag}-* of this machine") from error
            self.lock = lock

    def release_lock(self) -> None:
        if self.lock:
            fcntl.flock(self.lock, fcntl.LOCK_UN)
            self.lock.close()
            self.lock = None

    def build(self) -> None:
        addresses = run(["ip", "-o", "-4", "addr"])
        used = re.findall(rf"^\d+: (\S+) +inet {re.escape(self.network)}\.", addresses, re.MULTILINE)
        if used:
            raise Unsupported(f"{used[0]} has an address in {self.network}.0/24: give the cluster another network")
        lines = [
            f"link add {self.tag} type bridge",
            f"addr add {self.network}.254/24 dev {self.tag}",
            f"link set {self.tag} up",
        ]
        for number, node in enumerate(self.nodes, 1):
            name, cable = f"{self.tag}-{node}", f"{self.tag}-{number}"
            lines += [f"netns add {name}", f"link add {cable} type veth peer name eth0 netns {name}"]
            lines.append(f"link set {cable} master {self.tag} up")
        run(["ip", "-batch", "-"], "\n".join(lines) + "\n")
        for node in self.nodes:
            inside = f"addr add {self.address(node)}/24 dev eth0\nlink set eth0 up\nlink set lo up\n"
            run(["ip", "-n", f"{self.tag}-{node}", "-batch", "-"], inside)

    def sweep(self) -> None:
        names = [
            line.split()[0] for line in run(["ip", "netns", "list"]).splitlines() if line.startswith(f"{self.tag}-")
        ]
        for name in names:
            if not wait_until(lambda: not kill_all(run(["ip", "netns", "pids", name]).split()), PATIENCE):
                raise OSError(f"{name}: its processes did not follow SIGKILL within {PATIENCE:.0f} s")
        for link in re.findall(rf"^\d+: ({self.tag}(?:-\d+)?)[@:]", run(["ip", "-o", "link"]), re.MULTILINE):
            run(["ip", "link", "del", link])
        for name in names:
            run(["ip", "netns", "del", name])
        with contextlib.suppress(FileNotFoundError):
            shutil.rmtree(f"/var/lib/{self.tag}")


def kill_all(pids: list[str]) -> bool:
    """Kills processes, and gives whether there were any."""
    for pid in pids:
        with contextlib.suppress(ProcessLookupError):
            os.kill(int(pid), signal.SIGKILL)
    return bool(pids)


class Machines(Servers):
    """Nodes that are machines, which `ssh` reaches.

    `hosts` has for each node what `ssh` calls it, as root@192.0.2.1, and `addresses` under which IPv4 address the
    other nodes know it, where that is another one. `options` go to `ssh`, as ["-i", "KEY"]. `become` stands before
    each command there, as ["sudo", "-n"], where the user is not root. Two tests on the same machines at the same time
    disturb one another.
    """

    def __init__(
        self,
        hosts: Mapping[str, str],
        addresses: Mapping[str, str] | None = None,
        options: Sequence[str] = (),
        become: Sequence[str] = (),
        tag: str = "jeprun",
    ) -> None:
        super().__init__(tag)
        self.hosts, self.addresses, self.options, self.become = hosts, dict(addresses or {}), options, become

    def address(self, node: str) -> str:
        if node not in self.addresses:
            said = run(["ssh", *self.options, "-G", self.hosts[node]])
            self.addresses[node] = socket.gethostbyname(re.findall(r"^hostname (\S+)$", said, re.MULTILINE)[0])
        return self.addresses[node]

    def words(self, node: str, words: Sequence[str]) -> list[str]:
        return [*self.ssh(), self.hosts[node], shlex.join([*self.become, *words])]

    def ssh(self) -> list[str]:
        """How `ssh` is called. One connection serves all commands to a machine, and ends if not used for a minute."""
        folder = pathlib.Path.home() / ".ssh"
        folder.mkdir(mode=0o700, exist_ok=True)
        named = {"BatchMode": "yes", "ConnectTimeout": "10", "ControlMaster": "auto", "ControlPersist": "60"}
        named["ControlPath"] = f"{folder}/jeprun-%C"
        return ["ssh", *self.options, *(word for name, value in named.items() for word in ("-o", f"{name}={value}"))]

    def teardown(self) -> None:
        def fetch(node: str) -> None:
            text = self.script(node, FETCH, self.log(node))
            if text:
                (self.folder / f"{node}.log").write_text(text, encoding="utf-8")

        with contextlib.suppress(OSError):  # then it can't be removed either, which is said
            try_each(self.nodes, fetch)
        super().teardown()
        for node in self.nodes:
            with contextlib.suppress(OSError):  # there may be no connection any more
                run([*self.ssh(), "-O", "exit", self.hosts[node]])

    def sweep(self) -> None:
        def clean(node: str) -> None:
            self.kill(node)
            self.script(node, UNSET, self.chain, QUEUES, self.device(node))
            self.script(node, REMOVE, self.place(node))

        try_each(self.nodes, clean)
