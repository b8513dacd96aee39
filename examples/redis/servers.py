"""A Redis primary with its replica, connections to them, and the faults that they are put under."""

import contextlib
import shutil
import signal
import socket
import subprocess
import sys
import tempfile
import time

HOST = "127.0.0.1"
PATIENCE = 20  # seconds: a server that takes longer to start, or to answer the nemesis, ends the run


class NotDone(Exception):
    """A call is known to have changed nothing. The text says why, in one word."""


class ErrorReply(NotDone):
    """A reply that says that a command was not done. Its first word says why."""

    def __init__(self, text):
        super().__init__(text.split()[0].lower())


class Connection:
    """A connection to a server, for one command at a time. Where the server lets it wait too long it raises TimeoutError."""

    def __init__(self, port, seconds):
        self.socket = socket.create_connection((HOST, port), timeout=seconds)
        self.replies = self.socket.makefile("rb")

    def ask(self, *words):
        """The reply to a command: an integer, a text, a list of replies, or None where there is no such key."""
        parts = [str(word).encode() for word in words]
        self.socket.sendall(b"*%d\r\n" % len(parts) + b"".join(b"$%d\r\n%s\r\n" % (len(part), part) for part in parts))
        return self.reply()

    def reply(self):
        line = self.replies.readline()
        if line[:1] == b"$" and line[1:2].isdigit():
            line = b"+" + self.replies.read(int(line[1:]) + 2)
        if not line.endswith(b"\r\n"):
            raise ConnectionResetError
        kind, text = line[:1], line[1:-2].decode()
        if kind == b"-":
            raise ErrorReply(text)
        if kind == b"*":
            return [self.reply() for _ in range(int(text))]
        return None if kind == b"$" else int(text) if kind == b":" else text

    def close(self):
        self.replies.close()
        self.socket.close()


class Pair:
    """A primary and its replica: the port of each, and its system process where it was started here."""

    def __init__(self, ports, folder=None):
        self.ports, self.folder, self.processes = dict(zip(("primary", "replica"), ports)), folder, {}

    def start(self, role):
        words = ["redis-server", "--bind", HOST, "--port", self.ports[role], "--dir", self.folder, "--save", ""]
        words += ["--repl-diskless-sync", "yes", "--repl-diskless-sync-delay", 0]
        words += ["--replicaof", HOST, self.ports["primary"]] if role == "replica" else []
        self.processes[role] = subprocess.Popen([str(word) for word in words], stdout=subprocess.DEVNULL)

    def send(self, role, number):
        """Sends a signal to a server's process."""
        self.processes[role].send_signal(number)

    def kill(self, role):
        self.processes[role].kill()
        self.processes[role].wait()

    def ask(self, role, *words):
        """A server's reply to a command, on a connection of its own."""
        with contextlib.closing(Connection(self.ports[role], PATIENCE)) as connection:
            return connection.ask(*words)

    def follow(self):
        """Tells the replica to follow the primary: it drops what it has, and takes what the primary has."""
        self.ask("replica", "REPLICAOF", HOST, self.ports["primary"])

    def swap(self):
        """The replica is the primary from now on, and the primary is its replica."""
        for table in self.ports, self.processes:
            if table:
                table["primary"], table["replica"] = table["replica"], table["primary"]
        self.follow()

    def catch_up(self):
        """Waits until the replica has what the primary has: what is written last arrives last."""
        mark, end = str(time.monotonic_ns()), time.monotonic() + PATIENCE
        while time.monotonic() < end:
            with contextlib.suppress(OSError, ErrorReply):
                self.ask("primary", "SET", "jeprun-mark", mark)
                if self.ask("replica", "GET", "jeprun-mark") == mark:
                    return
            time.sleep(0.05)
        sys.exit("record.py: the replica does not follow the primary")


@contextlib.contextmanager
def new_pair():
    """A primary and its replica, which are stopped at the end."""
    if not shutil.which("redis-server"):
        sys.exit("record.py: there is no redis-server")
    with socket.create_server((HOST, 0)) as one, socket.create_server((HOST, 0)) as other:
        ports = one.getsockname()[1], other.getsockname()[1]
    with tempfile.TemporaryDirectory(prefix="record-") as folder:
        pair = Pair(ports, folder)
        try:
            for role in ("primary", "replica"):
                pair.start(role)
            yield pair
        finally:
            for role in pair.processes:
                pair.kill(role)


# Of each fault what begins it, and what withdraws it.
FAULTS = {
    "pause-primary": (lambda pair: pair.send("primary", signal.SIGSTOP), lambda pair: pair.send("primary", signal.SIGCONT)),
    "pause-replica": (lambda pair: pair.send("replica", signal.SIGSTOP), lambda pair: pair.send("replica", signal.SIGCONT)),
    "kill-primary": (lambda pair: pair.kill("primary"), lambda pair: pair.start("primary")),
    "hold-writes": (
        lambda pair: pair.ask("primary", "CLIENT", "PAUSE", 3600000, "WRITE"),
        lambda pair: pair.ask("primary", "CLIENT", "UNPAUSE"),
    ),
    "cut": (lambda pair: pair.ask("replica", "REPLICAOF", "NO", "ONE"), Pair.follow),
    "replace-primary": (lambda pair: pair.ask("replica", "REPLICAOF", "NO", "ONE"), Pair.swap),
}
