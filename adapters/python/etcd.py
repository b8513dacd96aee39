"""Tests etcd: three nodes in network namespaces keep a register for each key, under cuts, pauses, kills and loss.

    python3 adapters/python/etcd.py [--serializable] [SETTINGS]

It needs root, and on Debian `apt-get install etcd-server iproute2 iptables`. Settings are etcd.toml beside this file,
where no others are given. Reads are linearizable, as they are in etcd by default, and the test is to be valid. With
--serializable a node answers reads by what it has itself, which is old where it was cut off: settings are then
etcd-serializable.toml, and the test is not valid.
"""

import argparse
import base64
import contextlib
import email.utils
import http.client
import json
import pathlib
import sys
import urllib.request
from typing import Any

import jeprun
from clusters import Namespaces
from jeprun import Failed, Operation, Value

PORT, PEER_PORT, TIMEOUT = 2379, 2380, 1.0
GAP = 0.05  # seconds that a client waits before a call, on average


class Etcd(Namespaces):
    """A server on each node. Elections are quick, so that a test of a minute sees many."""

    port = PORT
    clock_tolerance = 1.25

    def command(self, node: str) -> list[str]:
        client, peer = f"http://{self.address(node)}:{PORT}", f"http://{self.address(node)}:{PEER_PORT}"
        members = ",".join(f"{member}=http://{self.address(member)}:{PEER_PORT}" for member in self.nodes)
        words = f"etcd --name {node} --data-dir {self.home(node)}/etcd --heartbeat-interval 50 --election-timeout 300"
        words += f" --listen-client-urls {client} --advertise-client-urls {client} --listen-peer-urls {peer}"
        return f"{words} --initial-advertise-peer-urls {peer} --initial-cluster {members}".split()

    def is_up(self, node: str) -> bool:
        """A node is healthy when it knows of a leader, and a read by it succeeds."""
        with contextlib.suppress(OSError, ValueError):
            with urllib.request.urlopen(f"http://{self.address(node)}:{PORT}/health", timeout=TIMEOUT) as answer:
                return bool(json.load(answer)["health"] == "true")
        return False

    def clock(self, node: str) -> float:
        """What etcd says that the time is, in whole seconds. libfaketime does not move it, and the test says so."""
        with urllib.request.urlopen(f"http://{self.address(node)}:{PORT}/version", timeout=TIMEOUT) as answer:
            return float(email.utils.parsedate_to_datetime(answer.headers["Date"]).timestamp())


def encoded(text: str) -> str:
    """A key or a value as etcd's gateway has it."""
    return base64.b64encode(text.encode()).decode()


class EtcdClient(jeprun.Client):
    """Speaks with one node, by JSON over HTTP. It tries nothing twice: then a write might happen twice."""

    def __init__(self, cluster: Etcd, is_serializable: bool) -> None:
        self.cluster, self.is_serializable = cluster, is_serializable

    def open(self, node: str) -> None:
        self.connection = http.client.HTTPConnection(self.cluster.address(node), PORT, timeout=TIMEOUT)

    def invoke(self, operation: Operation) -> Value:
        key = encoded(f"register-{operation.key}")
        try:
            if self.connection.sock is None:
                self.connection.connect()
        except OSError as error:
            raise Failed(f"connect: {error}") from error  # nothing was sent
        if operation.function == "write":
            self.post("put", {"key": key, "value": encoded(str(operation.value))})
            return None
        try:
            held = self.post("range", {"key": key, "serializable": self.is_serializable}).get("kvs")
        except (OSError, http.client.HTTPException) as error:
            self.connection.close()
            raise Failed(str(error)) from error  # a read that gave nothing changed nothing
        return int(base64.b64decode(held[0]["value"])) if held else None

    def post(self, path: str, body: dict[str, Any]) -> dict[str, Any]:
        self.connection.request("POST", f"/v3/kv/{path}", json.dumps(body))
        answer = self.connection.getresponse()
        said = json.loads(answer.read())
        if answer.status != 200:
            raise OSError(f"status {answer.status}: {said.get('error')}")
        return dict(said)

    def close(self) -> None:
        self.connection.close()


def main() -> int:
    parser = argparse.ArgumentParser(description="Tests etcd, three nodes in network namespaces of this machine.")
    parser.add_argument("--serializable", action="store_true", help="have a node answer reads by what it has itself")
    parser.add_argument("settings", nargs="?", help="those beside this program, where none are given")
    given = parser.parse_args()
    name = "etcd-serializable" if given.serializable else "etcd"
    settings = given.settings or pathlib.Path(__file__).with_name(f"{name}.toml")
    cluster = Etcd()
    return jeprun.run_test(settings, cluster, lambda: EtcdClient(cluster, given.serializable), name=name, gap=GAP)


if __name__ == "__main__":
    sys.exit(main())
