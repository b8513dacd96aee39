#!/usr/bin/env python3
"""A test of a set that this program holds in a dict, in a database's place. It needs nothing, and is the first file to copy.

    python3 memory.py
"""

import pathlib
import sys
import time

import jeprun


class Memory(jeprun.Cluster):
    """Nodes that are only names. What each link and node has to be is kept in a dict, and clients look there."""

    def setup(self) -> None:
        self.elements: dict[int, bool] = {}
        self.links: dict[tuple[str, str], jeprun.LinkCell] = {}
        self.states: dict[str, jeprun.NodeCell] = {}

    def teardown(self) -> None:
        """There is nothing on the machine."""

    def set_link(self, source: str, destination: str, cell: jeprun.LinkCell) -> None:
        self.links[source, destination] = cell

    def set_node(self, node: str, cell: jeprun.NodeCell) -> None:
        self.states[node] = cell

    def read_back(self) -> jeprun.Cells:
        return self.links, self.states

    def process(self, node: str) -> str:
        """Whether a node is running, paused or killed."""
        return self.states.get(node, jeprun.NodeCell()).process


class Client(jeprun.Client):
    """A client of a node."""

    def __init__(self, cluster: Memory) -> None:
        self.cluster = cluster

    def open(self, node: str) -> None:
        """A node that is killed refuses. Behind any exception of `open` the call was not done."""
        if self.cluster.process(node) == "killed":
            raise ConnectionRefusedError(f"{node} is killed")

    def invoke(self, operation: jeprun.Operation) -> jeprun.Value:
        """A paused node answers when it runs again. Whoever waits too long may have been heard: `run_test` says `:info`."""
        while self.cluster.process(operation.node) == "paused":
            time.sleep(0.01)
        if self.cluster.process(operation.node) == "killed":
            raise jeprun.Failed(f"{operation.node} is killed")
        if operation.function == "read":
            return set(self.cluster.elements)
        self.cluster.elements[operation.value] = True
        return None


if __name__ == "__main__":
    memory = Memory()
    settings = pathlib.Path(__file__).with_name("memory.toml")
    sys.exit(jeprun.run_test(settings, memory, lambda: Client(memory), call_timeout=0.5, gap=0.05))
