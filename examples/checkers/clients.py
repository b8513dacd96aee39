"""Client threads, which make calls one after another, and the history of these calls."""

import concurrent.futures
import itertools
import pathlib
import random
import sys
import threading
import time

# The servers of the histories of Redis, and the connections to them, serve here too.
sys.path.append(str(pathlib.Path(__file__).resolve().parent.parent / "redis"))
from servers import NotDone  # noqa: E402

THREADS = 4


def written(value):
    """A value as EDN. A text stands for itself."""
    if isinstance(value, dict):
        return "{" + ", ".join(f"{key} {written(it)}" for key, it in value.items()) + "}"
    if isinstance(value, set):
        return "#{" + " ".join(map(str, sorted(value))) + "}"
    if isinstance(value, list):
        return "[" + " ".join(map(str, value)) + "]"
    return "nil" if value is None else str(value)


class History:
    """The operations of a run, each a line, in the order in which they happened. Times count nanoseconds."""

    def __init__(self):
        self.lock, self.lines, self.start = threading.Lock(), [], time.monotonic_ns()

    def append(self, kind, process, f, value, error=None):
        with self.lock:
            line = f":index {len(self.lines)}, :time {time.monotonic_ns() - self.start}, :type :{kind}, :process {process}, "
            line += f":f :{f}, :value {written(value)}" + (f", :error :{error}" if error else "")
            self.lines.append("{" + line + "}")


class Client:
    """A client thread, which is one process after another. What it does with a server is said by a class for each server."""

    def __init__(self, thread, server, history, seed):
        self.thread, self.server, self.history = thread, server, history
        self.process, self.dice, self.fresh = thread, random.Random(f"{seed} {thread}"), itertools.count(thread, THREADS)

    def rest(self):
        """How many seconds the thread waits before its next call."""
        return self.dice.uniform(0, 0.02)

    def draw(self):
        """The next call: its function, and the value of its invocation."""
        raise NotImplementedError

    def perform(self, f, value):
        """Makes a call: the value of its :ok. It raises NotDone where the call is known to have changed nothing, and
        OSError where nobody knows."""
        raise NotImplementedError

    def finish(self):
        """Makes the last call of the test, where it has one, on a new connection. One client does."""

    def close(self):
        """Ends all connections. The next call makes new ones."""

    def call(self, f, value):
        """Makes a call, and records it."""
        self.history.append("invoke", self.process, f, value)
        try:
            self.history.append("ok", self.process, f, self.perform(f, value))
        except NotDone as why:
            self.history.append("fail", self.process, f, value, why)
        except OSError as why:
            self.history.append("info", self.process, f, value, "timeout" if isinstance(why, TimeoutError) else "connection-lost")
            self.process += THREADS
            self.close()

    def run(self, calls):
        for _ in range(calls):
            time.sleep(self.rest())
            self.call(*self.draw())


def run_nemesis(test, server, history, over):
    """Does the test's fault now and then, until the calls are over. It is recorded before and after it is done."""
    while test.fault and not over.wait(test.fault_gap):
        name = test.fault.__name__.replace("_", "-")
        history.append("info", ":nemesis", name, None)
        test.fault(server)
        history.append("info", ":nemesis", name, None)


def record(test, server, seed):
    """The lines of the history of a test with a server that is there."""
    history, over = History(), threading.Event()
    clients = [test.client(thread, server, history, seed) for thread in range(THREADS)]
    with concurrent.futures.ThreadPoolExecutor(THREADS + 1) as pool:
        nemesis = pool.submit(run_nemesis, test, server, history, over)
        try:
            for run in [pool.submit(client.run, test.calls) for client in clients]:
                run.result()
        finally:
            over.set()
        nemesis.result()
    for client in clients:
        client.close()
    clients[0].finish()
    clients[0].close()
    return history.lines
