"""Tests Redis: a primary, two replicas, and on each node a Sentinel, which replaces a primary that is cut off.

    python3 adapters/python/redis_failover.py [SETTINGS]

It needs root, and on Debian `apt-get install redis-server iproute2 iptables`. Settings are redis-set.toml beside this
file, where no others are given; redis-register.toml has a register. Replicas follow their primary asynchronously, as
they do by default. So a primary that is cut off acknowledges writes that no other node gets, and loses them when it
is made a replica: the tests are not valid.
"""

import contextlib
import pathlib
import socket
import sys
from typing import Any

import jeprun
from clusters import Namespaces
from jeprun import Failed, Operation, Settings, Value

PORT, SENTINEL_PORT, TIMEOUT = 6379, 26379, 1.0
GAP = 0.1  # seconds that a client waits before a call, on average
# A command is written to the append-only file before it is answered, so a server that is killed and started again has
# lost nothing.
SERVER = f"""bind {{address}}
port {PORT}
dir {{home}}
protected-mode no
save ""
appendonly yes
repl-diskless-sync-delay 0
"""
SENTINEL = f"""bind {{address}}
port {SENTINEL_PORT}
dir {{home}}
protected-mode no
sentinel monitor primary {{first}} {PORT} 2
sentinel down-after-milliseconds primary 1000
sentinel failover-timeout primary 3000
"""


class Refused(Exception):
    """A server answered with an error."""


class Connection:
    """A connection to a server, which speaks RESP, Redis's protocol."""

    def __init__(self, address: str, port: int) -> None:
        self.socket = socket.create_connection((address, port), timeout=TIMEOUT)
        self.answers = self.socket.makefile("rb")

    def ask(self, *words: str) -> Any:
        """Sends a command, and gives its reply."""
        parts = [b"$%d\r\n%b\r\n" % (len(word.encode()), word.encode()) for word in words]
        self.socket.sendall(b"*%d\r\n" % len(words) + b"".join(parts))
        return self.reply()

    def reply(self) -> Any:
        line = self.answers.readline().decode()
        if not line.endswith("\r\n"):
            raise ConnectionError("the server closed the connection")
        kind, rest = line[0], line[1:-2]
        if kind == "-":
            raise Refused(rest)
        if kind == "+":
            return rest
        number = int(rest)
        if kind == "*":
            return [self.reply() for _ in range(number)]
        if kind == "$" and number >= 0:
            return self.answers.read(number + 2)[:-2].decode()
        return None if kind == "$" else number

    def close(self) -> None:
        self.answers.close()
        self.socket.close()


class Redis(Namespaces):
    """A server and a Sentinel on each node. The first node is the primary at first."""

    workload = ""

    def check(self, settings: Settings) -> None:
        super().check(settings)
        self.workload = settings.table["workload"]

    def prepare(self, node: str) -> None:
        first = self.address(self.nodes[0])
        words = {"address": self.address(node), "home": self.home(node), "first": first}
        follow = "" if node == self.nodes[0] else f"replicaof {first} {PORT}\n"
        # Both programs write into their files what they have to know when they are started again.
        pathlib.Path(self.home(node), "redis.conf").write_text(SERVER.format(**words) + follow, encoding="utf-8")
        pathlib.Path(self.home(node), "sentinel.conf").write_text(SENTINEL.format(**words), encoding="utf-8")

    def command(self, node: str) -> list[str]:
        home = self.home(node)
        return ["sh", "-c", f"redis-server {home}/redis.conf & exec redis-server {home}/sentinel.conf --sentinel"]

    def is_up(self, node: str) -> bool:
        """Whether the Sentinel of a node knows of all others, and they of the primary."""
        try:
            with contextlib.closing(Connection(self.address(node), SENTINEL_PORT)) as sentinel:
                words = sentinel.ask("SENTINEL", "MASTER", "primary")
        except (OSError, Refused):
            return False
        known, others = dict(zip(words[::2], words[1::2], strict=True)), str(len(self.nodes) - 1)
        return (known["flags"], known["num-slaves"], known["num-other-sentinels"]) == ("master", others, others)


class RedisClient(jeprun.Client):
    """Asks the Sentinel of its node for the primary before each call, and so hears of a new one as soon as it does."""

    def __init__(self, cluster: Redis) -> None:
        self.cluster, self.address = cluster, ""
        self.sentinel: Connection | None = None
        self.primary: Connection | None = None

    def find(self, node: str) -> Connection:
        """A connection to the primary."""
        self.sentinel = self.sentinel or Connection(self.cluster.address(node), SENTINEL_PORT)
        address = self.sentinel.ask("SENTINEL", "GET-MASTER-ADDR-BY-NAME", "primary")[0]
        if self.primary is None or address != self.address:
            if self.primary:
                self.primary.close()
            self.address, self.primary = address, Connection(address, PORT)
        return self.primary

    def invoke(self, operation: Operation) -> Value:
        try:
            primary = self.find(operation.node)
        except (OSError, Refused) as error:
            self.close()
            raise Failed(f"no primary: {error}") from error  # nothing was sent
        try:
            return self.make(primary, operation)
        except Refused as error:
            raise Failed(str(error)) from error  # the error stands in the place of the command's answer
        except OSError as error:
            self.close()
            if operation.function == "read":
                raise Failed(str(error)) from error  # a read that gave nothing changed nothing
            raise

    def make(self, primary: Connection, operation: Operation) -> Value:
        match operation.function, operation.value:
            case "add", element:
                primary.ask("SADD", "elements", str(element))
            case "write", value:
                primary.ask("SET", "register", str(value))
            case "read", _ if self.cluster.workload == "set":
                return {int(element) for element in primary.ask("SMEMBERS", "elements")}
            case "read", _:
                held = primary.ask("GET", "register")
                return None if held is None else int(held)
        return None

    def close(self) -> None:
        for connection in (self.sentinel, self.primary):
            if connection:
                connection.close()
        self.sentinel = self.primary = None


def main() -> int:
    settings = pathlib.Path(sys.argv[1]) if sys.argv[1:] else pathlib.Path(__file__).with_name("redis-set.toml")
    cluster = Redis()
    return jeprun.run_test(settings, cluster, lambda: RedisClient(cluster), gap=GAP)


if __name__ == "__main__":
    sys.exit(main())
