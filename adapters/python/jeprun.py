"""Tests a database that really runs: write a `Client` and a `Cluster`, and call `run_test`.

`jeprun drive` chooses calls and faults, keeps the history and judges it. This module does what its lines say, with a
thread for each client, and leaves a folder for each test. README.md says more, and docs/adapters.md has the lines.
"""

import contextlib
import json
import os
import pathlib
import queue
import random
import re
import signal
import subprocess
import sys
import tempfile
import threading
import time
import tomllib
import traceback
from collections.abc import Callable, Iterable
from dataclasses import dataclass, field, replace
from typing import Any, TypeAlias

Value: TypeAlias = Any  # what EDN here has: None, bool, int of 64 bits, str, Keyword, list, tuple, set, frozenset, dict
ADAPTER_FAILED = 5  # the exit status where the cluster, the client's code or this module failed
KEYWORD = re.compile(r"[A-Za-z0-9.*+!_?$%&=<>-]+")
TOKEN = re.compile(r'[\s,]*([][{}]|"[^"]*"|[^][{}"\s,]+)')
CLOSING = {"[": "]", "{": "}"}
ESCAPES = str.maketrans({'"': '\\"', "\\": "\\\\", "\n": "\\n", "\t": "\\t", "\r": "\\r"})
CELL_OF_FAULT = dict.fromkeys(["cut", "halves", "split-one", "bridge", "ring"], "cut")
CELL_OF_FAULT |= {"slow": "delay", "fix": "delay", "loss": "loss", "pause": "paused", "kill": "killed", "bump": "clock"}
FAULT = re.compile(r"[\[(][\s,]*:(" + "|".join(CELL_OF_FAULT) + r")(?![\w-])")


@dataclass(frozen=True)
class LinkCell:
    """What a link from one node to another has to be."""

    cut: bool = False
    delay: int = 0  # milliseconds
    loss: int = 0  # twentieths of the messages


@dataclass(frozen=True)
class NodeCell:
    """What a node has to be."""

    process: str = "running"  # or "paused" or "killed"
    clock: int = 0  # by how many milliseconds its clock is ahead


Links: TypeAlias = dict[tuple[str, str], LinkCell]
Nodes: TypeAlias = dict[str, NodeCell]
Cells: TypeAlias = tuple[Links, Nodes]


@dataclass
class Operation:
    """A call that a client has to make."""

    process: int
    function: str  # "read", "write", "cas", "add", "generate" or "txn"
    value: Value  # without its key, where keys are independent
    key: int | None
    node: str
    other: dict[str, Any] = field(default_factory=dict)  # what a client puts here stands in the history, too


@dataclass(frozen=True)
class Settings:
    """The settings of a test, as far as an adapter has to know them."""

    table: dict[str, Any]  # the TOML document
    nodes: list[str]
    start: Cells  # what is not healthy before the first fault
    needs: frozenset[str]  # what the test may make of cells: "cut", "delay", "loss", "paused", "killed", "clock"


class Failed(Exception):
    """The call was not done, for certain. Any other exception of a client means that it may have been done."""


class Unsuitable(Exception):
    """What a client gave is no answer to its call. The test is stopped, and fails."""


class Unsupported(Exception):
    """The test can't begin here. Nothing was set up."""


class Client:
    """A connection to one node, used by one thread. It is made anew behind a call that may have been done."""

    def open(self, node: str) -> None:
        """Connects to the node."""

    def invoke(self, operation: Operation) -> Value:
        """Makes a call, and gives what a read, a generate or a transaction got."""
        raise NotImplementedError

    def close(self) -> None:
        """Ends the connection."""


class Cluster:
    """The nodes of a database, and the links between them."""

    folder: pathlib.Path  # for logs and data of the nodes; set before `setup`
    nodes: list[str]  # set before `check`

    def check(self, settings: Settings) -> None:
        """Raises Unsupported where this machine can't do what the test needs. Nothing was set up yet."""

    def setup(self) -> None:
        """Starts the database on all nodes, and returns when clients can use it."""

    def teardown(self) -> None:
        """Ends all faults and all that `setup` began. May run in another process, behind half a `setup`, and twice."""

    def set_link(self, source: str, destination: str, cell: LinkCell) -> None:
        """Makes a link what the cell says, whatever it was before."""

    def set_node(self, node: str, cell: NodeCell) -> None:
        """Makes a node what the cell says, whatever it was before."""

    def read_back(self) -> Cells | None:
        """All links and nodes that really are not as in a healthy cluster, or None where that can't be read."""
        return None


class Keyword(str):
    """A keyword of EDN: `Keyword("ok")` is written `:ok`."""


def read(line: str) -> Value:
    """The element on a line of `jeprun drive`. This is not all of EDN, but all that such lines have."""
    tokens = TOKEN.findall(line)[::-1]

    def element() -> Value:
        token = tokens.pop()
        if token in CLOSING:
            members = []
            while tokens[-1] != CLOSING[token]:
                members.append(element())
            tokens.pop()
            return dict(zip(members[::2], members[1::2], strict=True)) if token == "{" else members
        return Keyword(token[1:]) if token[0] == ":" else json.loads("null" if token == "nil" else token)

    return element()


def write(value: Value, room: int = 32) -> str:
    """A value as EDN. What EDN here has no form for, as a float, and what is too deep is written as a string."""
    if value is None or isinstance(value, bool):
        return "nil" if value is None else str(value).lower()
    if isinstance(value, Keyword) and KEYWORD.fullmatch(value):
        return ":" + value
    if isinstance(value, int) and -(2**63) <= value < 2**63:
        return str(int(value))
    if room and isinstance(value, list | tuple):
        return "[" + " ".join(write(member, room - 1) for member in value) + "]"
    if room and isinstance(value, set | frozenset):
        return "#{" + " ".join(sorted({write(member, room - 1) for member in value})) + "}"
    if room and isinstance(value, dict):
        pairs = {write(key, room - 1): write(member, room - 1) for key, member in value.items()}
        return "{" + ", ".join(f"{key} {member}" for key, member in pairs.items()) + "}"
    return '"' + str(value).encode("utf-8", "replace").decode().translate(ESCAPES) + '"'


def run_program(*words: str, given: bytes = b"") -> subprocess.CompletedProcess[bytes]:
    """Runs `jeprun` to its end, where Ctrl-C does not reach it."""
    return subprocess.run(words, input=given, capture_output=True, check=False, start_new_session=True)


def read_settings(path: pathlib.Path, jeprun: str) -> Settings:
    """Reads settings before anything is set up. `jeprun` itself judges them, and reads the start."""
    try:
        # Without any reply `jeprun drive` writes a report at once. Where it refuses the settings, it writes nothing.
        tried = run_program(jeprun, "drive", str(path))
        if not tried.stdout:
            raise Unsupported(f"{path}: {tried.stderr.decode(errors='replace').strip()}", tried.returncode)
        table = tomllib.loads(path.read_bytes().decode())
    except (OSError, ValueError) as error:
        raise Unsupported(f"{path}: {error}") from error
    start = read(run_program(jeprun, "env", given=table["start"].encode()).stdout.decode().splitlines()[-1])
    cut, slow, loss = ({(link[0], link[1]): link[-1] for link in start[key]} for key in ("cut", "slow", "loss"))
    down, clock = dict(start["down"]), dict(start["clock"])
    links = {link: LinkCell(link in cut, slow.get(link, 0), loss.get(link, 0)) for link in {*cut, *slow, *loss}}
    nodes = {node: NodeCell(down.get(node, "running"), clock.get(node, 0)) for node in {*down, *clock}}
    needs = {CELL_OF_FAULT[fault] for entry in table.get("schedule", []) for fault in FAULT.findall(entry)}
    needs |= {need for need, held in (("cut", cut), ("delay", slow), ("loss", loss), ("clock", clock)) if held}
    return Settings(table, start["nodes"], (links, nodes), frozenset(needs | set(down.values())))


def complain(text: str) -> None:
    """Writes a line to standard error, if there still is one."""
    with contextlib.suppress(OSError, ValueError, RuntimeError):
        print(f"jeprun.py: {text}", file=sys.stderr, flush=True)


class Folder:
    """The folder of a test. What can't be written there goes to a spare one, or where that fails to standard output."""

    def __init__(self, parent: pathlib.Path, settings: pathlib.Path, jeprun: str) -> None:
        self.path = parent / (time.strftime("%Y%m%dT%H%M%S") + f".{time.time_ns() // 10**6 % 1000:03}")
        self.places: list[pathlib.Path | None] = [self.path]  # files are written in the last one
        self.files, self.lock, self.jeprun = dict[str, Any](), threading.RLock(), jeprun
        self.report_trouble: Callable[[str], None] = complain
        try:
            (self.path / "nodes").mkdir(parents=True)
            (self.path / "settings.toml").write_bytes(settings.read_bytes())
            link = parent / f"latest.{os.getpid()}"
            link.symlink_to(self.path.name)
            link.replace(parent / "latest")
        except OSError as error:
            raise Unsupported(f"the folder of the test: {error}") from error

    def log(self, text: str, error: BaseException | None = None) -> None:
        """Writes a line to test.log, and an exception behind it."""
        lines = f"{time.strftime('%H:%M:%S')} {text}\n" + "".join(traceback.format_exception(error) if error else [])
        self.write("test.log", lines.encode("utf-8", "replace"))

    def write(self, name: str, data: bytes) -> None:
        """Writes whole lines behind those that a file has."""
        with self.lock:
            while place := self.places[-1]:
                length, mode = 0, "ab" if name == "test.log" else "wb"
                try:
                    # Without a buffer: what was written is there, whoever is killed then.
                    file = self.files[name] = self.files.get(name) or open(place / name, mode, buffering=0)
                    length, rest = file.tell(), memoryview(data)
                    while rest:
                        rest = rest[file.write(rest) :]
                    return
                except OSError as error:
                    # Half a line is taken back: what a file has in both folders together is the whole of it.
                    with contextlib.suppress(OSError, LookupError):
                        self.files[name].truncate(length)
                    self.files.clear()
                    self.places.append(None)
                    with contextlib.suppress(OSError):
                        self.places[-1] = pathlib.Path(tempfile.mkdtemp("", "jeprun-")) if place == self.path else None
                    where = self.places[-1] or "standard output"
                    self.report_trouble(f"{place / name}: {error.strerror}: the rest goes to {where}")
            with contextlib.suppress(OSError, ValueError):
                print("".join(f"{name}: {line}\n" for line in data.decode().splitlines()), end="", flush=True)

    def read(self, name: str) -> bytes:
        """What was written to a file, in either folder."""
        return b"".join((place / name).read_bytes() for place in self.places if place and (place / name).exists())

    def keep_report(self, lines: Iterable[bytes], hear: Callable[[bytes], None]) -> str | None:
        """Keeps what `jeprun drive` writes, and hears its lines up to `:end`. Gives the verdict, its last line."""
        has_ended, tail = False, list[bytes]()
        for line in lines:
            self.write("report.edn", line)
            if not has_ended:
                hear(line)
                has_ended = line == b":end\n"
            elif tail or line.startswith(b":active"):
                tail.append(line)
            else:
                self.write("history.edn", line)
        return tail[2].decode().rstrip("\n") if len(tail) == 3 and tail[2].endswith(b"\n") else None

    def play_again(self) -> tuple[int, str | None]:
        """Makes the report anew, from the replies that were kept. Gives the status and the verdict."""
        self.files = {name: file for name, file in self.files.items() if name in ("test.log", "replies.edn")}
        ran = run_program(self.jeprun, "drive", str(self.path / "settings.toml"), given=self.read("replies.edn"))
        return ran.returncode, self.keep_report(ran.stdout.splitlines(keepends=True), lambda _: None)

    def draw(self, table: dict[str, Any]) -> None:
        """Draws the pages of the history."""
        words = [f"--{key}={table[key]}" for key in ("workload", "initial", "model", "budget") if key in table]
        words += ["--independent"] * ("threads_per_key" in table)
        for name, options in (("timeline", words), ("plot", list[str]())):
            ran = run_program(self.jeprun, name, *options, given=self.read("history.edn"))
            if ran.returncode in (0, 1, 2):
                self.write(f"{name}.html", ran.stdout)
            elif b"unrecognized" not in ran.stderr:  # not every `jeprun` has each of these commands
                self.log(f"{name}.html: {ran.stderr.decode(errors='replace').strip()}")


class Guard:
    """A process that tears the cluster down where this one is killed, which it sees by a pipe: it closes then."""

    def __init__(self, cluster: Cluster, folder: Folder, table: dict[str, Any]) -> None:
        reader, self.writer = os.pipe()
        sys.stdout.flush()
        self.process = os.fork()
        if self.process == 0:
            try:
                os.close(self.writer)
                os.setsid()
                for number in (signal.SIGINT, signal.SIGTERM, signal.SIGHUP, signal.SIGQUIT):
                    signal.signal(number, signal.SIG_IGN)
                if os.fdopen(reader, "rb").read() != b"done":
                    self.clean(cluster, folder)
                    folder.draw(table)
            finally:
                os._exit(0)
        os.close(reader)

    @staticmethod
    def clean(cluster: Cluster, folder: Folder) -> None:
        """Does what the other process has left undone."""
        time.sleep(1)  # a command that it had begun may still be running
        try:
            cluster.teardown()
            text = "the guard has torn the cluster down"
        except Exception as error:
            text = f"the guard could not tear the cluster down: {error!r}"
        complain(text)
        folder.log(f"{text}; as far as the test got: {folder.play_again()[1]}")

    def end(self, is_torn_down: bool) -> None:
        """Lets the guard go, or has it tear down once more."""
        with contextlib.suppress(OSError):
            os.write(self.writer, b"done" if is_torn_down else b"")
        os.close(self.writer)
        os.waitpid(self.process, 0)


def completed_value(workload: str, function: str, asked: Value, got: Value) -> Value:
    """The value of an `:ok` completion, without its key. If it did not suit, `jeprun drive` would wait for another."""
    if function not in ("read", "txn"):
        return got if function == "generate" else asked
    is_integer, is_list = type(got) is int and -(2**63) <= got < 2**63, isinstance(got, list | tuple)
    micros = [micro for micro in got if isinstance(micro, list | tuple) and len(micro) == 3] if is_list else []
    has_lists = all(isinstance(seen, list | tuple | None) for name, _, seen in micros if name == "r")
    suits = {
        "register": is_integer or got is None,
        "counter": is_integer,
        "set": is_list or isinstance(got, set | frozenset),
        "list-append": has_lists and [list(micro[:2]) for micro in micros] == [micro[:2] for micro in asked or ()],
    }
    if not suits[workload]:
        raise Unsuitable(f"{function} {write(asked)} was answered by {got!r}")
    pairs = zip(asked or (), micros)
    return got if function == "read" else [[*old[:2], new[2] if old[2] is None else old[2]] for old, new in pairs]


class Worker(threading.Thread):
    """The thread of a client. It is abandoned where a call runs out, and another one takes its place."""

    def __init__(self, test: "Test") -> None:
        super().__init__(daemon=True)
        self.test, self.operations = test, queue.SimpleQueue[Operation | None]()
        self.open: Operation | None = None  # the call that has no completion yet
        self.asked: Value = None  # its value
        self.deadline, self.is_begun = 0.0, False
        self.client: Client | None = None
        self.start()

    def run(self) -> None:
        """Makes the calls that come, one after another."""
        while operation := self.operations.get():
            self.perform(operation, self.asked)
        self.close()

    def close(self) -> None:
        """Closes the client, whatever it says to that."""
        client, self.client = self.client or Client(), None
        with contextlib.suppress(Exception):
            client.close()

    def perform(self, operation: Operation, asked: Value) -> None:
        """Makes a call, and completes it."""
        test, function, workload = self.test, operation.function, self.test.settings.table["workload"]
        time.sleep(random.uniform(0, 2 * test.gap))
        self.deadline = time.monotonic() + test.call_timeout
        try:
            if not self.client:
                self.client = test.make_client()
                self.client.open(operation.node)
            with test.lock:
                self.is_begun = self.open is operation
            if self.is_begun:  # from here on it may have been done
                got = self.client.invoke(operation)
                value = completed_value(workload, function, asked if operation.key is None else asked[1], got)
                self.complete("ok", operation, value if operation.key is None else [operation.key, value])
        except Exception as error:
            if isinstance(error, Unsuitable):
                test.fail(f"process {operation.process}: {error}")
            elif repr(error) not in test.seen and len(test.seen) < 100:
                test.seen.add(repr(error))
                test.folder.log(f"{function} of process {operation.process}: the first such exception:", error)
            is_definite = isinstance(error, Failed) or not self.is_begun
            operation.other = {"error": isinstance(error, Failed) and str(error) or repr(error), **operation.other}
            self.complete("fail" if is_definite else "info", operation, asked)
            if not is_definite or not self.is_begun:
                self.close()

    def complete(self, kind: str, operation: Operation, value: Value) -> None:
        """Writes the completion of a call, unless it has one."""
        line = {"type": Keyword(kind), "process": operation.process, "f": Keyword(operation.function), "value": value}
        line["time"] = time.monotonic_ns() - self.test.began
        text = write({Keyword(key): held for key, held in (line | operation.other | line).items()})
        with self.test.lock:
            if self.open is operation:
                self.open = None
                self.test.say(text)


class Test:
    """One test: its cluster, its clients, and its conversation with `jeprun drive`."""

    def __init__(self, settings: Settings, cluster: Cluster, client: Callable[[], Client], folder: Folder) -> None:
        self.settings, self.cluster, self.make_client, self.folder = settings, cluster, client, folder
        self.call_timeout = self.step_timeout = self.pause = self.gap = 0.0  # seconds
        self.links, self.nodes = dict(settings.start[0]), dict(settings.start[1])  # what was told
        self.lock, self.changing, self.over = folder.lock, threading.Lock(), threading.Event()
        self.program: Any = None
        self.interrupts, self.may_leave, self.is_torn_down, self.began = 0, False, False, 0
        self.workers, self.failures, self.seen = list[Worker](), list[str](), set[str]()
        self.stops = queue.SimpleQueue[str]()
        folder.report_trouble = self.fail

    def fail(self, text: str, error: BaseException | None = None) -> None:
        """Says what went wrong. The test is stopped, and fails, whatever the verdict."""
        self.failures.append(text)
        complain(text)
        self.folder.log(text, error)
        if self.program:
            self.say(":stop\n:stop")

    def say(self, text: str) -> None:
        """Writes a reply: to the file first, so that the file has whatever `jeprun drive` has read."""
        data = f"{text}\n".encode()
        with self.lock, contextlib.suppress(OSError, ValueError):  # if it has ended, that is seen where it is read
            if not self.over.is_set():
                self.folder.write("replies.edn", data)
                self.program.stdin.write(data)
                self.program.stdin.flush()

    def hear(self, text: bytes) -> None:
        """Has a thread do what a line says."""
        if text == b":end\n":
            self.over.set()
            self.change("at the end", {}, {})
        elif (line := read(text.decode()))["process"] == "nemesis":
            threading.Thread(target=self.step, args=(line,), daemon=True).start()
        else:
            worker = self.workers[line["process"] % len(self.workers)]
            # Read once more, since a client may change what it is given.
            worker.asked, worker.is_begun, worker.deadline = read(text.decode())["value"], False, float("inf")
            key, value = line["value"] if "threads_per_key" in self.settings.table else (None, line["value"])
            worker.open = Operation(line["process"], str(line["f"]), value, key, line["node"])
            worker.operations.put(worker.open)

    def tick(self) -> None:
        """Tells the time now and then, and `:stop` behind a Ctrl-C, and completes calls that ran out."""
        while not self.over.wait(self.pause):
            while not self.stops.empty():
                self.say(self.stops.get())
            self.say(str(time.monotonic_ns() - self.began))
            for place, worker in enumerate(self.workers):
                with self.lock:
                    if worker.open and time.monotonic() > worker.deadline:
                        # What this thread says later is dropped. What it has not begun, it does not do any more.
                        self.workers[place] = Worker(self)
                        worker.operations.put(None)
                        kind, what = ("info", "timed out") if worker.is_begun else ("fail", "open timed out")
                        worker.open = replace(worker.open, other={"error": f"{what} after {self.call_timeout:g} s"})
                        worker.complete(kind, worker.open, worker.asked)

    def step(self, line: dict[str, Value]) -> None:
        """Does a step of the nemesis, and says that it is done."""
        links = {(source, destination): LinkCell(**cell) for source, destination, cell in line["links"]}
        nodes = {node: NodeCell(**cell) for node, cell in line["nodes"]}
        self.folder.log(f"step {line['value']}: {write(line['step'])}")
        error = self.change(f"step {line['value']}", links, nodes)
        told = f", :value {line['value']}, :time {time.monotonic_ns() - self.began}"
        self.say(f"{{:type :info, :process :nemesis, :f :step{told}" + (f", :error {write(error)}}}" if error else "}"))

    def change(self, name: str, links: Links, nodes: Nodes) -> str:
        """Makes these links and nodes what they have to be, and reads all back. Gives what went wrong."""
        self.links.update(links)
        self.nodes.update(nodes)
        actions: list[tuple[Any, ...]] = [(self.cluster.set_link, *link, cell) for link, cell in links.items()]
        actions += [(self.cluster.set_node, node, cell) for node, cell in nodes.items()]
        errors, is_late = list[str](), threading.Event()

        def act() -> None:
            with self.changing:
                for action, *arguments in [*actions, (self.compare, errors)]:
                    try:
                        if not is_late.is_set():
                            action(*arguments)
                    except Exception as error:
                        errors.append(f"{action.__name__}{tuple(arguments)}: {error!r}")

        # In a thread of its own, so that it can run out. Nothing else changes the cluster before that thread has ended.
        thread = threading.Thread(target=act, daemon=True)
        thread.start()
        thread.join(self.step_timeout)
        if thread.is_alive():
            is_late.set()
            errors.append(f"timed out after {self.step_timeout:g} s")
        if errors:
            self.fail(f"{name}: {'; '.join(errors)}")
        return "; ".join(errors)

    def compare(self, errors: list[str]) -> None:
        """Reads back what the cluster really is. A difference to what was told is an error."""
        tables: Any = zip((self.links, self.nodes), self.cluster.read_back() or (), (LinkCell(), NodeCell()))
        for told, found, healthy in tables:
            for place in sorted({*told, *found}):
                wanted, real = told.get(place, healthy), found.get(place, healthy)
                if wanted != real:
                    name = place if isinstance(place, str) else " to ".join(place)
                    errors.append(f"{name}: told {wanted}, is {real}")

    def interrupted(self, *_: Any) -> None:
        """Ctrl-C, or a SIGTERM. The first two stop the test, which `tick` says to `jeprun drive`."""
        self.interrupts += 1
        if self.may_leave and (self.program is None or self.interrupts > 2):
            raise KeyboardInterrupt
        complain("Ctrl-C: all faults end" if self.interrupts == 1 else "Ctrl-C: the final calls are left out, too")
        self.stops.put(":stop")

    def run(self) -> tuple[int, str | None]:
        """Runs the test, and gives the status and the verdict."""
        verdict = None
        try:
            self.may_leave = True
            self.folder.log("setup")
            self.cluster.setup()
            self.change("start", *self.settings.start)
            verdict = None if self.failures else self.converse()
        except KeyboardInterrupt:
            complain("Ctrl-C: the cluster is torn down at once")
        except Exception as error:
            self.fail(f"the test can't go on: {error!r}", error)
        self.may_leave = False
        with self.lock:
            self.over.set()  # from here on no reply is kept
        for worker in self.workers:
            worker.operations.put(None)
        if not self.changing.acquire(timeout=self.step_timeout):  # never released: nothing is changed from here on
            self.fail("a step is still under way while the cluster is torn down")
        self.folder.log("teardown")
        try:
            self.cluster.teardown()
            self.is_torn_down = True
        except Exception as error:
            self.fail(f"teardown: {error!r}", error)
        if verdict or not self.program:
            return self.program.wait() if self.program else ADAPTER_FAILED, verdict
        self.program.kill()
        if self.interrupts < 3:
            self.fail(f"jeprun gave no verdict, status {self.program.wait()}: its replies are played again")
        return self.folder.play_again()

    def converse(self) -> str | None:
        """Has the conversation, and gives the verdict."""
        words, pipe = [self.folder.jeprun, "drive", str(self.folder.path / "settings.toml")], subprocess.PIPE
        # In a session of its own, so that Ctrl-C reaches this process alone.
        self.program = program = subprocess.Popen(words, stdin=pipe, stdout=pipe, start_new_session=True)
        self.began = time.monotonic_ns()
        self.workers = [Worker(self) for _ in range(self.settings.table["clients"])]
        threading.Thread(target=self.tick, daemon=True).start()
        return self.folder.keep_report(program.stdout or (), self.hear)


def run_test(
    settings: str | os.PathLike[str], cluster: Cluster, client: Callable[[], Client], *, name: str | None = None,
    store: str | os.PathLike[str] = "store", call_timeout: float = 5.0, step_timeout: float = 30.0, tick: float = 0.005,
    gap: float = 0.0, jeprun: str = "jeprun",
) -> int:  # fmt: skip
    """Runs the test that the settings describe. Gives the exit status: that of `jeprun drive`, or 5 where the cluster
    or an adapter's code failed. The last line on standard output is the verdict, the one before it names the folder."""
    path = pathlib.Path(settings)
    try:
        known = read_settings(path, jeprun)
        cluster.nodes = known.nodes
        cluster.check(known)
        folder = Folder(pathlib.Path(store, name or path.stem), path, jeprun)
    except Unsupported as error:
        complain(str(error.args[0]))
        return int(error.args[1]) if len(error.args) > 1 else ADAPTER_FAILED
    cluster.folder = folder.path / "nodes"
    guard = Guard(cluster, folder, known.table)  # before there is any thread, since it forks
    test = Test(known, cluster, client, folder)
    test.call_timeout, test.step_timeout, test.pause, test.gap = call_timeout, step_timeout, tick, gap
    handlers = {number: signal.signal(number, test.interrupted) for number in (signal.SIGINT, signal.SIGTERM)}
    try:
        status, verdict = test.run()
        if verdict:
            folder.draw(known.table)
    finally:
        guard.end(test.is_torn_down)
        for number, handler in handlers.items():
            signal.signal(number, handler)
    with contextlib.suppress(OSError):
        print(folder.path, verdict or "no verdict", sep="\n", flush=True)
    return ADAPTER_FAILED if test.failures else status
