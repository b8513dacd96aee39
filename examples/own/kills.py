"""The second test of store.py: it starts the server itself, kills it and pauses it. As root:

    python3 kills.py [--save-first]
"""

import pathlib
import sys

import client
import jeprun
from clusters import Namespaces

STORE = pathlib.Path(__file__).resolve().with_name("store.py")


class Store(Namespaces):
    """A server on each node, which is a network namespace of this machine."""

    port = client.PORT

    def command(self, node: str) -> list[str]:
        return ["python3", str(STORE), str(self.port), f"{self.home(node)}/words", *sys.argv[1:]]


class Client(client.Client):
    def open(self, node: str) -> None:
        self.address = cluster.address(node)
        super().open(node)


if __name__ == "__main__":
    cluster = Store()
    sys.exit(jeprun.run_test(pathlib.Path(__file__).with_name("kills.toml"), cluster, Client, gap=0.05))
