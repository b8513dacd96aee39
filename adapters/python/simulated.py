#!/usr/bin/env python3
"""Tests a node that speaks Maelstrom's messages in a simulation: in one process, in virtual time, the same way each
time.

    simulated.py --node nodes/raft.py [--seed N] SETTINGS [-- WORD ..]
    simulated.py --node nodes/raft.py --search [--from I] [--runs N] [--faults K] [--palette KINDS] SETTINGS ..
    simulated.py --node nodes/raft.py --shrink [--budget N] SETTINGS ..

The node is an actor, as nodes/actor.py says: the same file runs as a process, by `maelstrom.py --bin`. Here its nodes
are objects. What happens, happens as an event at a time of its own, and when one is done the clock jumps to the next.
How long a message takes, whether it is lost, and the random numbers of nodes follow from the seed. So the settings
and the seed are the whole test. With --search many tests are tried, each with another seed and other faults, up to the
first whose history is not valid. With --shrink a test is tried with fewer and fewer of its faults, as long as its
history is not valid still. docs/simulated.md says more.
"""

import argparse
import collections
import contextlib
import fcntl
import heapq
import importlib.util
import itertools
import json
import os
import pathlib
import random
import re
import select
import subprocess
import sys
import termios
from collections.abc import Callable, Iterator
from dataclasses import dataclass, field, replace
from typing import Any, NamedTuple

import jeprun
import maelstrom
from maelstrom import Indefinite, Parser, request_of, value_of
from maelstrom_network import Body, Malformed, error

NODES = pathlib.Path(__file__).with_name("nodes")
MILLISECOND, SECOND = 10**6, 10**9  # nanoseconds
TICK, TICK_WITH_RATE = 10 * MILLISECOND, 2 * MILLISECOND
CALL = re.compile(r'.*, :process (\d+), :f :(\S+), :value (.*), :node "(.*)"}')
BEGIN = re.compile(rb"{:type :test, :number (\d+), :seed (\d+)}\n")
END = b"\n:end\n"
# What stands between the last report and the settings of its test.
HEADING = re.compile(rb"(?m)^:(found|minimal|budget|not-reproduced)\n")
Work = Callable[[], None]
# Maelstrom's workloads whose nodes need neither a topology nor a service.
WORKLOADS = ["g-counter", "g-set", "lin-kv", "txn-list-append", "unique-ids"]
Start = Callable[[Any, list[str]], Any]  # of nodes/actor.py: makes an actor from its world and words


class TestFailed(Exception):
    """The test can't go on: a node raised an exception or answered what is no answer, or `jeprun drive` ended."""


def load(path: pathlib.Path) -> Start:
    """What makes a node, from its file."""
    for folder in (str(NODES), str(path.resolve().parent)):
        if folder not in sys.path:
            sys.path.insert(0, folder)
    specification = importlib.util.spec_from_file_location(path.stem, path)
    assert specification and specification.loader
    module = importlib.util.module_from_spec(specification)
    specification.loader.exec_module(module)
    start: Start = module.start
    return start


# --- the conversation with `jeprun drive`


def unread(pipe: int) -> int:
    """How many bytes of a pipe nobody has read yet."""
    return int.from_bytes(fcntl.ioctl(pipe, termios.FIONREAD, bytes(4)), sys.byteorder)


class Program:
    """`jeprun`, which conducts a test or many, is given a line, and gives all that it has to say to it.

    Nothing in its output says that no more comes. But all that it says to a line has left it before it reads on, and
    that it has read on can be seen: its input is a pipe of packets, and each read takes one. So behind each line a
    space is written, with which the next line begins, and which means nothing there. When that was read, it is done
    with the line before it.
    """

    def __init__(self, *words: str) -> None:
        reader, self._input = os.pipe2(os.O_DIRECT | os.O_CLOEXEC)
        fcntl.fcntl(self._input, fcntl.F_SETPIPE_SZ, 2 * os.sysconf("SC_PAGESIZE"))  # room for two packets
        self._program = subprocess.Popen(words, stdin=reader, stdout=subprocess.PIPE, start_new_session=True)
        os.close(reader)
        assert self._program.stdout is not None
        self._output = self._program.stdout
        os.set_blocking(self._output.fileno(), False)
        self._poll = select.poll()
        self._poll.register(self._input, select.POLLOUT)
        self._poll.register(self._output, select.POLLIN)
        self.written = bytearray()  # all that it wrote, of many tests since the last one began
        self._given = 0  # so many bytes of it were given as lines, all of them whole
        self.is_over = False  # whether the test is over: it wrote `:end`
        self._behind_end = 0  # how far the lines of the test go in `written`, where it is over

    def next_test(self) -> tuple[int, int] | None:
        """Waits for the next of many tests, and gives its number and its seed, or None where no other comes."""
        os.set_blocking(self._output.fileno(), True)
        while b"\n" not in self.written[self._behind_end :] and (some := os.read(self._output.fileno(), 1 << 16)):
            self.written += some
        os.set_blocking(self._output.fileno(), False)
        begun = BEGIN.match(self.written, self._behind_end)
        if not begun:
            return None
        self.written, self._given, self._behind_end, self.is_over = self.written[begun.end() :], 0, 0, False
        return int(begun[1]), int(begun[2])

    def say(self, line: str | None) -> list[str]:
        """Writes a line, and gives the lines that are said to it; with None those that are said before any."""
        with contextlib.suppress(BrokenPipeError):  # it has ended
            if line is not None:
                os.write(self._input, f"{line}\n".encode())
            os.write(self._input, b" ")
            self._wait_for_room()  # now it has read the line
            if not self.is_over and unread(self._input):
                os.write(self._input, b" ")
                self._wait_for_room()  # now it has read the first space
        self._take()
        if self.is_over:
            return []
        lines = self.written[self._given :].decode().splitlines()
        self._given = len(self.written)
        return lines

    def end(self) -> int:
        """Reads the report, and gives the exit status."""
        os.set_blocking(self._output.fileno(), True)
        with self._output:
            self.written += self._output.read()
        os.close(self._input)
        return self._program.wait()

    def kill(self) -> None:
        """Ends it where the test can't go on."""
        self._program.kill()
        self.end()

    def _wait_for_room(self) -> None:
        """Waits until there is room for a packet, and takes meanwhile what is said."""
        while not self.is_over:
            ready = dict(self._poll.poll())
            self._take()
            if self._input in ready:
                return

    def _take(self) -> None:
        """Takes what it has said until now."""
        has_ended = False
        with contextlib.suppress(BlockingIOError):
            while some := os.read(self._output.fileno(), 1 << 16):
                self.written += some
            has_ended = True
        if not self.is_over and (place := (b"\n" + self.written[self._given :]).find(END)) >= 0:
            self.is_over, self._behind_end = True, self._given + place + len(END) - 1
        if has_ended and not self.is_over:
            raise TestFailed("jeprun ended in the midst of the test")


# --- nodes and links in virtual time


class Clock:
    """The virtual time, in nanoseconds, and what is to happen later."""

    def __init__(self) -> None:
        self.now = 0
        self._events: list[tuple[int, int, Work]] = []
        self._numbers = itertools.count()

    def after(self, nanoseconds: int, work: Work) -> None:
        heapq.heappush(self._events, (self.now + nanoseconds, next(self._numbers), work))

    def step(self) -> None:
        """Goes to the next event, and has it happen. Of events of one time the one that was asked for first comes
        first."""
        self.now, _, work = heapq.heappop(self._events)
        work()


class Arrival(NamedTuple):
    """A message that has arrived, or would have, and what became of it."""

    now: int
    fate: str
    number: int
    source: str
    destination: str
    text: str

    def line(self) -> str:
        message = {"id": self.number, "src": self.source, "dest": self.destination, "body": json.loads(self.text)}
        return json.dumps({"seconds": self.now / SECOND, "fate": self.fate, "message": message}) + "\n"


@dataclass
class Test:
    """What a simulation is made from."""

    program: str  # that is `jeprun`
    path: pathlib.Path  # of the settings
    settings: jeprun.Settings
    workload: str  # Maelstrom's name of it
    start: Start
    words: list[str]
    seed: int = 0
    latency: float = 5  # milliseconds
    timeout: float = 1  # seconds
    arrivals: list[Arrival] = field(default_factory=list)  # of its messages, when they have arrived


class Network:
    """Carries messages between nodes and clients. Links between nodes have cells; others have no faults."""

    def __init__(self, test: Test, clock: Clock, hear: Callable[[Body], None]) -> None:
        self.cells: dict[tuple[str, str], jeprun.LinkCell] = {}
        self._clock, self._hear, self._arrivals = clock, hear, test.arrivals
        self._random = random.Random(f"{test.seed} network")
        self._most = int(2 * test.latency * MILLISECOND)
        self._numbers = itertools.count()
        self.nodes = {name: Node(test, clock, self, name) for name in test.settings.nodes}

    def send(self, source: str, destination: str, body: Body) -> int:
        """Puts a message on its way, and gives its number. It takes as long as the link says when it is sent."""
        number, text = next(self._numbers), json.dumps(body)
        cell = self.cells.get((source, destination))
        wait = self._random.randrange(self._most + 1) + (cell.delay * MILLISECOND if cell else 0)
        self._clock.after(wait, lambda: self._arrive(number, source, destination, text))
        return number

    def _arrive(self, number: int, source: str, destination: str, text: str) -> None:
        """Hands a message over, unless its link is cut or loses it. What counts is the link's cell at this moment."""
        cell = self.cells.get((source, destination))
        if cell and cell.cut:
            fate = "cut"
        elif cell and cell.loss and self._random.randrange(20) < cell.loss:
            fate = "lost"
        else:
            fate = self._hand_over(source, destination, text)
        self._arrivals.append(Arrival(self._clock.now, fate, number, source, destination, text))

    def _hand_over(self, source: str, destination: str, text: str) -> str:
        node = self.nodes.get(destination)
        if node is None:
            self._hear(json.loads(text))
        elif node.cell.process != "killed":
            node.take(source, text)
        elif source in self.nodes:
            return "dropped"
        else:
            refusal = error(1, f"{destination} is not running")
            self.send(destination, source, {**refusal, "in_reply_to": json.loads(text)["msg_id"]})
            return "refused"
        return "delivered"


class Node:
    """A node, and the world of its actor."""

    def __init__(self, test: Test, clock: Clock, network: Network, name: str) -> None:
        self.name, self.others = name, [other for other in test.settings.nodes if other != name]
        self.random = random.Random(f"{test.seed} {name}")
        self.cell = jeprun.NodeCell("killed")
        self._clock, self._network, self._test = clock, network, test
        self._actor: Any = None
        self._life = 0  # how many times it was killed; what an earlier life has asked for does not happen
        self._stored: str | None = None
        self._held_back: list[Work] = []  # what has come while it is paused

    # What the actor may use, as nodes/actor.py says.

    def now(self) -> float:
        return self._clock.now / SECOND + self.cell.clock / 1000

    def send(self, destination: str, body: Body) -> None:
        self._network.send(self.name, destination, body)

    def after(self, seconds: float, work: Work) -> None:
        life = self._life
        self._clock.after(int(seconds * SECOND), lambda: self._do(life, work))

    def store(self, value: Any) -> None:
        self._stored = json.dumps(value)

    def stored(self) -> Any:
        return None if self._stored is None else json.loads(self._stored)

    # What is done to it.

    def take(self, source: str, text: str) -> None:
        """Is given a message."""
        self._do(self._life, lambda: self._actor.receive(source, json.loads(text)))

    def set(self, cell: jeprun.NodeCell) -> None:
        """Makes it what the cell says. A node that starts again has what it stored, and nothing else."""
        was, self.cell = self.cell.process, cell
        if cell.process == "killed":
            self._life, self._actor, self._held_back = self._life + 1, None, []
        elif was == "killed":
            self._begin()
        if cell.process == "running":
            held_back, self._held_back = self._held_back, []
            for work in held_back:
                self._do(self._life, work)

    def _begin(self) -> None:
        try:
            self._actor = self._test.start(self, self._test.words)
        except Exception as fault:
            raise TestFailed(f"{self.name} can't start: {fault!r}") from fault

    def _do(self, life: int, work: Work) -> None:
        """Does work of the actor, now or when it is not paused any more."""
        if life != self._life:
            return
        if self.cell.process == "paused":
            self._held_back.append(work)
            return
        try:
            work()
        except Exception as fault:
            raise TestFailed(f"{self.name} failed at {self._clock.now} ns: {fault!r}") from fault


# --- a test


class Simulation:
    """One test: clients, nodes and links, and the conversation with the program."""

    def __init__(self, test: Test, program: Program) -> None:
        self._test, self._program, self._clock = test, program, Clock()
        self._network = Network(test, self._clock, self._hear_answer)
        self._lines: collections.deque[str] = collections.deque()
        self._open: dict[int, tuple[jeprun.Operation, Any]] = {}  # by the msg_id of its message: a call and its value
        self._ids = itertools.count(1)
        self._replies: list[str] = []
        self._told = 0  # the time of the last reply
        self._ticks = TICK_WITH_RATE if "rate" in test.settings.table else TICK

    def run(self, first: str | None) -> bytes:
        """Holds the conversation, which begins with this line of the adapter, if there is one. Gives all replies
        behind it."""
        links, nodes = self._test.settings.start
        self._network.cells.update(links)
        self._tick()
        for name, node in self._network.nodes.items():
            node.set(nodes.get(name, jeprun.NodeCell()))
        self._lines.extend(self._program.say(first))
        while not self._program.is_over:
            if self._lines:
                self._hear(self._lines.popleft())
            else:
                self._clock.step()
        return "".join(self._replies).encode()

    def _say(self, text: str) -> None:
        """Writes a reply. What is said to it is heard next, at the same time."""
        self._replies.append(f"{text}\n")
        self._told = self._clock.now
        self._lines.extend(self._program.say(text))

    def _tick(self) -> None:
        """Tells the time now and then, where no reply has told it. An entry of the schedule waits for that."""
        if self._clock.now > self._told:
            self._say(str(self._clock.now))
        self._clock.after(self._ticks, self._tick)

    def _hear(self, line: str) -> None:
        """Does what a line says."""
        if call := CALL.fullmatch(line):
            self._call(int(call[1]), call[2], jeprun.read(call[3]), call[4])
        else:
            self._change(jeprun.read(line))

    def _change(self, step: dict[str, Any]) -> None:
        """Makes links and nodes what a step says, at once."""
        for source, destination, cell in step["links"]:
            self._network.cells[source, destination] = jeprun.LinkCell(**cell)
        for name, cell in step["nodes"]:
            self._network.nodes[name].set(jeprun.NodeCell(**cell))
        self._say(f"{{:type :info, :process :nemesis, :f :step, :value {step['value']}, :time {self._clock.now}}}")

    def _call(self, process: int, function: str, asked: Any, node: str) -> None:
        """Has a client make a call."""
        number = next(self._ids)
        key, value = asked if "threads_per_key" in self._test.settings.table else (None, asked)
        operation = jeprun.Operation(process, function, value, key, node)
        self._open[number] = operation, asked
        body = {**request_of(self._test.workload, operation), "msg_id": number}
        operation.other["message"] = self._network.send(f"c{process}", node, body)
        self._clock.after(int(self._test.timeout * SECOND), lambda: self._run_out(number))

    def _run_out(self, number: int) -> None:
        """Ends a call that was not answered in time. What is answered later is dropped."""
        if number in self._open:
            self._complete(number, error(0, f"no answer within {self._test.timeout:g} s"))

    def _hear_answer(self, body: Body) -> None:
        if body.get("in_reply_to") in self._open:
            self._complete(body["in_reply_to"], body)

    def _complete(self, number: int, answer: Body) -> None:
        """Says how a call has ended: done, not done, or that nobody knows, which a read counts as not done."""
        operation, asked = self._open.pop(number)
        key, kind, value = operation.key, "ok", asked
        try:
            got = value_of(self._test.workload, operation, answer)
            plain = asked if key is None else asked[1]
            got = jeprun.completed_value(self._test.settings.table["workload"], operation.function, plain, got)
            value = got if key is None else [key, got]
        except (Malformed, jeprun.Unsuitable) as fault:
            raise TestFailed(str(fault)) from fault
        except (Indefinite, jeprun.Failed) as reason:
            is_definite = isinstance(reason, jeprun.Failed) or operation.function == "read"
            kind, operation.other["error"] = "fail" if is_definite else "info", str(reason)
        call = f":type :{kind}, :process {operation.process}, :f :{operation.function}, :value {jeprun.write(value)}"
        other = "".join(f", :{name} {jeprun.write(held)}" for name, held in operation.other.items())
        self._say(f"{{{call}, :time {self._clock.now}{other}}}")


@dataclass
class Result:
    """What became of a test, or of many, of which it has the last one alone."""

    status: int
    written: bytes  # by the program
    replies: bytes
    begun: tuple[int, int] | None = None  # the number and the seed of the last of many tests

    def _heading(self) -> re.Match[bytes] | None:
        return HEADING.search(self.written)

    def report(self) -> bytes:
        """All that was written of the test, up to the verdict."""
        heading = self._heading()
        return self.written[: heading.start()] if heading else self.written

    def heading(self) -> str:
        """What stands behind the report of the last of many tests, as `:found`, or nothing."""
        heading = self._heading()
        return heading[0].decode().strip() if heading else ""

    def found(self) -> bytes:
        """The settings of the last of many tests."""
        heading = self._heading()
        return self.written[heading.end() :] if heading else b""

    def verdict(self) -> str:
        """The verdict of the test, or what many tests came to where there is no report."""
        last = self.report().decode().splitlines()[-1]
        return self.heading() if last == ":end" else last


@contextlib.contextmanager
def started(*words: str) -> Iterator[Program]:
    """The program, which is ended where the test can't go on."""
    program = Program(*words)
    try:
        yield program
    except BaseException:
        program.kill()
        raise


def run(test: Test) -> Result:
    """Runs a test."""
    with started(test.program, "drive", str(test.path)) as program:
        replies = Simulation(test, program).run(None)
        return Result(program.end(), bytes(program.written), replies)


def run_many(test: Test, command: str, options: list[str], see: Callable[[bytes], None] = lambda _: None) -> Result:
    """Runs tests one after another, each from the beginning and with the seed that the program names: with the command
    `search` candidates of a test, up to the first whose history is not valid, and with `shrink` the test with fewer
    and fewer entries. It lets see the replies of each."""
    replies = b""
    begun: tuple[int, int] | None = None
    with started(test.program, command, "--drive", str(test.path), *options) as program:
        while following := program.next_test():
            begun = following
            test.arrivals.clear()
            try:
                replies = Simulation(replace(test, seed=begun[1]), program).run(":ready")
            except (TestFailed, KeyboardInterrupt) as fault:
                raise TestFailed(f"test {begun[0]}: {str(fault) or 'Ctrl-C'}") from fault
            see(replies)
        return Result(program.end(), bytes(program.written), replies, begun)


# --- the command

# What the commands of many tests are told, with what stands for the value and what it means.
OF_MANY = {
    "search": {
        "from": ("I", "the number of the first test (0)"),
        "runs": ("N", "how many tests are tried (10000)"),
        "faults": ("K", "how many random faults each has (8)"),
        "palette": ("KINDS", "of which kinds they are, with commas between (all)"),
    },
    "shrink": {"budget": ("N", "how many tests are tried, beside the last one (10000)")},
}
MEANING = {
    "search": "tries tests with random faults up to the first that is not valid",
    "shrink": "tries a test that is not valid with fewer and fewer entries of its schedule",
}


def parse(words: list[str] | None = None) -> argparse.Namespace:
    parser = Parser(description="Tests a node that speaks Maelstrom's messages in a simulation, in virtual time.")
    option = parser.add_argument
    option("--node", required=True, type=pathlib.Path, metavar="FILE", help="the file of a node that is an actor")
    option("--seed", type=int, metavar="N", help="from which all that is random follows (the seed of the settings)")
    option("--workload", choices=WORKLOADS, help="Maelstrom's name of the workload; needed with settings of a set")
    option("--latency", type=float, default=5, metavar="MS", help="how long a message takes on average (5)")
    option("--timeout", type=float, default=1, metavar="SECONDS", help="how long a client waits for an answer (1)")
    for command, told in OF_MANY.items():
        option(f"--{command}", action="store_true", help=MEANING[command])
        for name, (metavar, means) in told.items():
            option(f"--{name}", metavar=metavar, help=f"with --{command}: {means}")
    option("--store", default="store", metavar="FOLDER", help="where the folders of tests are (store)")
    option("--jeprun", default="jeprun", metavar="PROGRAM", help="the program jeprun (the one on the PATH)")
    option("settings", type=pathlib.Path, metavar="SETTINGS", help="the settings of the test, a file")
    option("words", nargs="*", metavar="WORD", help="what the node is given, behind --")
    options = parser.parse_args(words)
    if options.search and options.shrink:
        parser.error("--shrink: not with --search")
    options.command = next((command for command in OF_MANY if vars(options)[command]), "")
    if options.command and options.seed is not None:
        parser.error(f"--seed: not with --{options.command}, where the settings say the seed of each test")
    options.told = []
    for command, told in OF_MANY.items():
        given = {name: vars(options)[name] for name in told if vars(options)[name] is not None}
        if given and command != options.command:
            parser.error(f"--{next(iter(given))}: only with --{command}")
        options.told += [f"--{name}={value}" for name, value in given.items()]
    return options


def workload_of(settings: jeprun.Settings, named: str | None) -> str:
    """Maelstrom's name of the workload."""
    suiting = [name for name in WORKLOADS if maelstrom.WORKLOADS[name][0] == settings.table["workload"]]
    workload = named or (suiting[0] if suiting else "")
    if workload not in suiting:
        raise jeprun.Unsupported(f"--workload: settings of a {settings.table['workload']} suit {' and '.join(suiting)}")
    return workload


def check_told(options: argparse.Namespace) -> None:
    """Has the program judge what a command of many tests is told, before there is a folder."""
    words = [options.jeprun, options.command, "--drive", str(options.settings), *options.told]
    # Without any reply the program names the first test and ends. Where it refuses what it is told, it writes nothing.
    tried = jeprun.run_program(*words)
    if not tried.stdout:
        raise jeprun.Unsupported(tried.stderr.decode(errors="replace").partition("\n")[0], tried.returncode)


def keep(folder: jeprun.Folder, result: Result, table: dict[str, Any]) -> None:
    """Keeps what became of a test or of many, and prints the last lines of the command."""
    lines = [str(folder.path), result.verdict()]
    folder.write("replies.edn", result.replies)
    if result.found():
        folder.write("found.toml", result.found())
    if not lines[-1].startswith((":none", ":not-reproduced")):
        folder.keep_report(result.report().splitlines(keepends=True), lambda line: None)
        folder.draw(table)
        if result.begun:
            lines.insert(1, "{:type :test, :number %d, :seed %d}" % result.begun)
        if result.heading() not in ("", ":found"):
            lines.append(result.heading())
    print(*lines, sep="\n", flush=True)


def main() -> int:
    options = parse()
    try:
        settings = jeprun.read_settings(options.settings, options.jeprun)
        workload = workload_of(settings, options.workload)
        if options.command:
            check_told(options)
        folder = jeprun.Folder(pathlib.Path(options.store, options.node.stem), options.settings, options.jeprun)
    except jeprun.Unsupported as refusal:
        jeprun.complain(str(refusal.args[0]))
        return int(refusal.args[1]) if len(refusal.args) > 1 else jeprun.ADAPTER_FAILED
    seed = settings.table.get("seed", 0) if options.seed is None else options.seed
    # Those in the folder, since what was named may stand in `latest`, which is another one now.
    path = folder.path / "settings.toml"
    test = Test(options.jeprun, path, settings, workload, load(options.node), options.words, seed, options.latency,
                options.timeout)  # fmt: skip
    try:
        result = run_many(test, options.command, options.told) if options.command else run(test)
    except TestFailed as fault:
        folder.log(str(fault), fault)
        jeprun.complain(f"{fault}: {folder.path}/test.log has more")
        return jeprun.ADAPTER_FAILED
    finally:
        folder.write("messages.jsonl", "".join(arrival.line() for arrival in test.arrivals).encode())
    keep(folder, result, settings.table)
    return result.status


if __name__ == "__main__":
    sys.exit(main())
