"""The first test of store.py: a client, and a server that runs already. See docs/real-databases.md.

    python3 store.py 8080 words &
    python3 client.py
"""

import http.client
import json
import pathlib
import sys

import jeprun

PORT = 8080


class Client(jeprun.Client):
    """Adds numbers to the set, and reads all."""

    address = "127.0.0.1"

    def open(self, node: str) -> None:
        self.connection = http.client.HTTPConnection(self.address, PORT, timeout=1)
        self.connection.connect()

    def invoke(self, operation: jeprun.Operation) -> jeprun.Value:
        if operation.function == "read":
            return [int(word) for word in json.loads(self.ask("GET", "/"))]
        return self.ask("PUT", f"/{operation.value}")

    def ask(self, method: str, path: str) -> str:
        self.connection.request(method, path)
        answer = self.connection.getresponse()
        if answer.status != 200:
            raise OSError(f"status {answer.status}")
        return answer.read().decode()

    def close(self) -> None:
        self.connection.close()


if __name__ == "__main__":
    sys.exit(jeprun.run_test(pathlib.Path(__file__).with_name("client.toml"), jeprun.Cluster(), Client, gap=0.05))
