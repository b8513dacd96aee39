#!/usr/bin/env python3
"""Tests a node that was written for a workload of Maelstrom (https://github.com/jepsen-io/maelstrom).

    maelstrom.py --bin ./node [--workload NAME] SETTINGS [-- ARGUMENT ..]

A node is a program that reads messages from its standard input and writes messages to its standard output, each a line
of JSON. This adapter starts a process for each node, carries the messages, and applies the faults of links to them by
itself. So it needs neither root nor anything that has to be installed. docs/maelstrom.md says how to use it, and what
Maelstrom does otherwise.
"""

import argparse
import contextlib
import itertools
import json
import os
import pathlib
import re
import signal
import subprocess
import sys
import threading
import time
from collections.abc import Callable, Iterator
from typing import Any, NoReturn

import jeprun
from maelstrom_network import SERVICES, Body, Caller, Input, Malformed, Network

# Each process of a node has this in its environment, with the folder of the test and the node's name. So it is found
# again from what is on the machine alone, with all that it started itself, also by a process that did not start it.
MARK = "JEPRUN_MAELSTROM_NODE"
START_SECONDS = 10.0
SIGNAL_SECONDS = 5.0
TOPOLOGIES = ["grid", "line", "total", "tree2", "tree3", "tree4"]


# --- what Maelstrom's pages say of errors and workloads

ERRORS = {
    0: "timeout",
    1: "node-not-found",
    10: "not-supported",
    11: "temporarily-unavailable",
    12: "malformed-request",
    13: "crash",
    14: "abort",
    20: "key-does-not-exist",
    21: "key-already-exists",
    22: "precondition-failed",
    30: "txn-conflict",
}
DEFINITE = ERRORS.keys() - {0, 13}  # behind other codes, also a node's own, nobody knows whether the call was done

# By the name of Maelstrom's workload: that of the settings, and the key of an answer that has what was read.
WORKLOADS = {
    "broadcast": ("set", "messages"),
    "g-counter": ("counter", "value"),
    "g-set": ("set", "value"),
    "lin-kv": ("register", "value"),
    "txn-list-append": ("list-append", "txn"),
    "unique-ids": ("unique-ids", "id"),
}


def request_of(workload: str, operation: jeprun.Operation) -> Body:
    """The body of the message that makes a call."""
    key, value = operation.key or 0, operation.value
    match workload, operation.function:
        case "lin-kv", "read":
            return {"type": "read", "key": key}
        case "lin-kv", "write":
            return {"type": "write", "key": key, "value": value}
        case "lin-kv", "cas":
            return {"type": "cas", "key": key, "from": value[0], "to": value[1]}
        case "broadcast", "add":
            return {"type": "broadcast", "message": value}
        case "g-set", "add":
            return {"type": "add", "element": value}
        case "g-counter", "add":
            return {"type": "add", "delta": value}
        case "txn-list-append", "txn":
            return {"type": "txn", "txn": value}
    return {"type": operation.function}


def value_of(workload: str, operation: jeprun.Operation, answer: Body) -> jeprun.Value:
    """What an answer says that a call got. Whether the checker can take such a value is looked at by `run_test`."""
    asked, node = request_of(workload, operation)["type"], operation.node
    if answer["type"] == "error":
        raise_error(answer)
    if answer["type"] != f"{asked}_ok":
        raise Malformed(f"{node} answered {asked} by {answer['type']}")
    if operation.function not in ("read", "generate", "txn"):
        return None
    key = WORKLOADS[workload][1]
    if key not in answer:
        raise Malformed(f"{node} answered {asked} without {key}")
    return answer[key]


class Indefinite(Exception):
    """An error that leaves open whether the call was done."""


def raise_error(answer: Body) -> None:
    """Raises what an error means: that the call was not done, or that nobody knows."""
    code: Any = answer.get("code")
    text = f"{code} {ERRORS.get(code, 'unknown')}: {answer.get('text', '')}".rstrip(": ")
    raise (jeprun.Failed if code in DEFINITE else Indefinite)(text)


def refusals(workload: str, settings: jeprun.Settings) -> Iterator[str]:
    """What settings have that can't be done here, or that makes a verdict mean nothing."""
    table = settings.table
    for place, entry in enumerate(table.get("schedule", [])):
        if ":bump" in entry:
            yield f"schedule: entry {place}: the clock of a node can't be changed: {entry}"
    if "clock" in settings.needs:
        yield "start: the clock of a node can't be changed"
    for name in settings.nodes:
        if name in SERVICES or re.fullmatch(r"c\d+", name):
            yield f"start: no node can be called {name}, since a service or a client is"
    if table["workload"] in ("set", "counter") and "final" not in table:
        yield f"final: missing: nodes of {workload} may lag, so they are read when all faults have ended"
    if workload == "g-counter" and ":read" in table["generator"]:
        yield "generator: nodes of g-counter may lag, so they are read in `final` alone"


def topology_of(names: list[str], shape: str) -> dict[str, list[str]]:
    """Who is whose neighbour: in a grid, in a line, with all others, or in a tree with so many branches."""
    places = range(len(names))
    side = next(side for side in itertools.count(1) if side * side >= len(names))
    if shape == "grid":
        pairs = [(i, i + 1) for i in places if (i + 1) % side] + [(i, i + side) for i in places]
    elif shape == "line":
        pairs = [(i, i + 1) for i in places]
    elif shape == "total":
        pairs = list(itertools.combinations(places, 2))
    else:
        pairs = [((i - 1) // int(shape.removeprefix("tree")), i) for i in places if i]
    near = {frozenset(pair) for pair in pairs}
    return {name: [names[j] for j in places if j != i and frozenset((i, j)) in near] for i, name in enumerate(names)}


# --- processes


def processes_of(mark: str) -> dict[int, str]:
    """The living processes whose mark begins so, each with its state as /proc has it."""
    found = {}
    wanted = b"\0" + f"{MARK}={mark}".encode()
    for entry in filter(str.isdigit, os.listdir("/proc")):
        with contextlib.suppress(OSError):  # of a process that has ended, or is another user's
            if wanted in b"\0" + pathlib.Path("/proc", entry, "environ").read_bytes():
                found[int(entry)] = pathlib.Path("/proc", entry, "stat").read_text().rpartition(")")[2].split()[0]
    return {process: state for process, state in found.items() if state not in "ZX"}


def signal_all(mark: str, number: signal.Signals) -> None:
    for process in processes_of(mark):
        with contextlib.suppress(ProcessLookupError):
            os.kill(process, number)


def state_of(mark: str) -> str:
    """Whether a node is running, paused or killed. Where only some of its processes are paused, the text says so."""
    states = processes_of(mark).values()
    paused = sum(state in "Tt" for state in states)
    if not states:
        return "killed"
    if 0 < paused < len(states):
        return f"{paused} of {len(states)} processes paused"
    return "paused" if paused else "running"


def wait_until(is_so: Callable[[], bool], seconds: float) -> bool:
    """Asks until something is so, at most for so long, and says whether it is."""
    end = time.monotonic() + seconds
    while not is_so():
        if time.monotonic() > end:
            return False
        time.sleep(0.01)
    return True


class Process:
    """A process of a node, with a thread that reads what it writes, and one that writes what it is to read."""

    def __init__(self, network: Network, name: str, command: list[str], mark: str, log: pathlib.Path) -> None:
        self.input: Input = Input()
        self._network, self._name, self._log = network, name, log
        self.is_ended = False
        pipe, environment = subprocess.PIPE, {**os.environ, MARK: mark}
        with open(log, "ab") as errors:
            # In a session of its own, so that Ctrl-C reaches the adapter alone.
            self._program = subprocess.Popen(
                command, stdin=pipe, stdout=pipe, stderr=errors, env=environment, start_new_session=True
            )
        for work in self._read, self._write:
            threading.Thread(target=work, daemon=True).start()

    def end(self) -> None:
        """Lets no more messages arrive, since it is killed now, or has ended."""
        self.is_ended = True
        self._network.end(self._name, self.input)
        self.input.put(None)

    def _read(self) -> None:
        assert self._program.stdout is not None
        with self._program.stdout as output:
            for number, line in enumerate(output, 1):
                self._network.take(self._name, number, line)
        status = self._program.wait()
        if not self.is_ended:
            self.end()
            self._network.complain(f"{self._name} ended by itself, with status {status}: {self._log} has its errors")

    def _write(self) -> None:
        assert self._program.stdin is not None
        with contextlib.suppress(OSError), self._program.stdin as given:  # of the process, which may have ended
            while (line := self.input.get()) is not None:
                given.write(line)
                given.flush()


# --- the cluster and its clients


class Maelstrom(jeprun.Cluster):
    """Nodes that are processes of this machine. This program is the network between them."""

    network: Network

    def __init__(self, options: argparse.Namespace) -> None:
        self.options = options
        self.workload = ""
        self.processes: dict[str, Process] = {}

    def check(self, settings: jeprun.Settings) -> None:
        checker = settings.table["workload"]
        suiting = [name for name, (of, _) in WORKLOADS.items() if of == checker]
        self.workload = self.options.workload or (suiting[0] if len(suiting) == 1 else "")
        if self.workload not in suiting:
            raise jeprun.Unsupported(f"--workload: settings of a {checker} suit {' and '.join(suiting)}")
        for refusal in refusals(self.workload, settings):
            raise jeprun.Unsupported(refusal)

    def setup(self) -> None:
        journal = None if self.options.no_messages else self.folder.parent / "messages.jsonl"
        self.network = Network(self.nodes, self.options.latency / 1000, journal)
        callers = {name: self._start(name) for name in self.nodes}
        for name, caller in callers.items():
            self._await_start(name, caller)

    def teardown(self) -> None:
        for process in self.processes.values():
            process.end()
        mark = f"{self.folder.resolve()}/"

        def are_gone() -> bool:
            signal_all(mark, signal.SIGKILL)
            return not processes_of(mark)

        if not wait_until(are_gone, SIGNAL_SECONDS):
            raise RuntimeError(f"these processes can't be killed: {sorted(processes_of(mark))}")
        if self.processes:
            self.network.close()

    def set_link(self, source: str, destination: str, cell: jeprun.LinkCell) -> None:
        self.network.cells[source, destination] = cell

    def set_node(self, node: str, cell: jeprun.NodeCell) -> None:
        mark = self._mark(node)
        if cell.process == "killed":
            self.processes[node].end()
            signal_all(mark, signal.SIGKILL)
        else:
            if state_of(mark) == "killed":
                self._await_start(node, self._start(node))
            signal_all(mark, signal.SIGSTOP if cell.process == "paused" else signal.SIGCONT)
        # A signal takes its time. Whether it did what it should, read_back says.
        wait_until(lambda: state_of(mark) == cell.process, SIGNAL_SECONDS)

    def read_back(self) -> jeprun.Cells:
        states = {name: jeprun.NodeCell(process=state_of(self._mark(name))) for name in self.nodes}
        return dict(self.network.cells), states

    def _mark(self, node: str) -> str:
        # With a slash at its end, so that no node's mark begins another one's.
        return f"{self.folder.resolve()}/{node}/"

    def _log(self, node: str) -> pathlib.Path:
        return self.folder / f"{node}.log"

    def _start(self, node: str) -> Caller:
        """Starts a process of a node, and sends it the message `init`."""
        process = Process(self.network, node, self.options.command, self._mark(node), self._log(node))
        self.processes[node] = process
        caller = Caller(self.network)
        caller.begin(node, process.input, {"type": "init", "node_id": node, "node_ids": self.nodes})
        return caller

    def _await_start(self, node: str, caller: Caller) -> None:
        """Waits until a node has begun, and tells it the topology where its workload has one."""
        self._await(node, caller, "init_ok")
        if self.workload == "broadcast":
            topology = topology_of(self.nodes, self.options.topology)
            caller.ask(node, {"type": "topology", "topology": topology})
            self._await(node, caller, "topology_ok")
        caller.leave()

    def _await(self, node: str, caller: Caller, kind: str) -> None:
        answer, end = None, time.monotonic() + START_SECONDS
        while answer is None and time.monotonic() < end and not self.processes[node].is_ended:
            answer = caller.answer(0.1)
        if answer is None or answer["type"] != kind:
            got = json.dumps(answer) if answer else "nothing"
            raise RuntimeError(f"{node} had to answer {kind}, and answered {got}: {self._log(node)} has its errors")


class MaelstromClient(jeprun.Client):
    """A client that makes the calls of a workload."""

    def __init__(self, cluster: Maelstrom) -> None:
        self.cluster = cluster

    def open(self, node: str) -> None:
        self.caller = Caller(self.cluster.network)

    def invoke(self, operation: jeprun.Operation) -> jeprun.Value:
        seconds = self.cluster.options.timeout
        # So the history names the message, and messages.jsonl tells what became of it.
        operation.other["message"] = self.caller.ask(operation.node, request_of(self.cluster.workload, operation))
        answer = self.caller.answer(seconds)
        try:
            if answer is None:
                raise Indefinite(f"no answer within {seconds:g} s")
            return value_of(self.cluster.workload, operation, answer)
        except Indefinite as reason:
            if operation.function == "read":
                raise jeprun.Failed(str(reason)) from reason  # it changed nothing, whatever became of it
            raise

    def close(self) -> None:
        self.caller.leave()


class Parser(argparse.ArgumentParser):
    def error(self, message: str) -> NoReturn:
        """Ends with jeprun's status for wrong arguments, since argparse's own one, 2, is that of an unknown verdict."""
        self.print_usage(sys.stderr)
        self.exit(3, f"{self.prog}: {message}\n")


def parse(words: list[str] | None = None) -> argparse.Namespace:
    parser = Parser(description="Tests a node that was written for a workload of Maelstrom.")
    option = parser.add_argument
    option("--bin", required=True, type=pathlib.Path, metavar="PROGRAM", help="the program of a node")
    option("--workload", choices=WORKLOADS, help="Maelstrom's name of the workload; needed with settings of a set")
    option("--latency", type=float, default=20, metavar="MS", help="how long a message takes on average (20)")
    option("--timeout", type=float, default=1, metavar="SECONDS", help="how long a client waits for an answer (1)")
    option("--topology", choices=TOPOLOGIES, default="grid", help="who is whose neighbour in broadcast (grid)")
    option("--no-messages", action="store_true", help="keep no file of all messages")
    option("--store", default="store", metavar="FOLDER", help="where the folders of tests are (store)")
    option("--jeprun", default="jeprun", metavar="PROGRAM", help="the program jeprun (the one on the PATH)")
    option("settings", metavar="SETTINGS", help="the settings of the test, a file")
    option("arguments", nargs="*", metavar="ARGUMENT", help="what the node's program is given, behind --")
    options = parser.parse_args(words)
    if options.bin.is_dir() or not os.access(options.bin, os.X_OK):
        parser.error(f"--bin: {options.bin} is no program that can be started")
    options.command = [str(options.bin.resolve()), *options.arguments]
    return options


def main() -> int:
    options = parse()
    cluster = Maelstrom(options)
    status = jeprun.run_test(
        options.settings,
        cluster,
        lambda: MaelstromClient(cluster),
        store=options.store,
        name=options.bin.stem,
        call_timeout=options.timeout + 5,
        jeprun=options.jeprun,
    )
    complaints = cluster.network.complaints if cluster.processes else 0
    if complaints and status in (0, 2):
        jeprun.complain(f"nodes broke the protocol {complaints} times: the test failed, whatever the verdict says")
        return jeprun.ADAPTER_FAILED
    return status


if __name__ == "__main__":
    sys.exit(main())
