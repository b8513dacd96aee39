#!/usr/bin/env python3
"""Records a history of a real Redis, taken for a register, a set, a counter or a giver of unique ids.

    python3 record.py [OPTION ..] > history.edn
    python3 record.py --workload set --fault replace-primary | jeprun check --workload set

It starts a primary and a replica that follows it asynchronously, on free ports and in a temporary folder, and stops both at the
end; or it takes two that run already, and first deletes its key there. It needs Python 3.10 or later, servers.py beside it,
and `redis-server` (Debian: `apt-get install redis-server`) where none runs. `--help` tells the options, README.md explains them.

Client threads write at the primary; they read from the primary or the replica. The faults that are asked for are begun and
withdrawn one after another, again and again, until the calls are over. A set and a counter are read once more at the end.

It writes the history as Jepsen does, one operation a line, in the order in which they happened; :time counts nanoseconds. An
invocation is recorded before its request is sent, a completion after its reply came. It is :ok where the call was done, and :fail
where it is known to have changed nothing. It is :info where the outcome is not known: the client waited longer than the limit, or
lost its connection on the way. Behind an :info the thread goes on as a new process, on new connections.
"""

import argparse
import concurrent.futures
import contextlib
import itertools
import random
import signal
import sys
import threading
import time

from servers import FAULTS, Connection, NotDone, Pair, new_pair


class Workload:
    """What a client does with one key: calls of the functions that have a share. Each thread has one."""

    shares = {}
    is_read_last = False

    def __init__(self, thread, given):
        self.thread, self.given = thread, given

    def draw_function(self, dice):
        return dice.choices(list(self.shares), self.given.mix)[0]

    def draw(self, dice):
        """The next call: its function and the value of its invocation."""
        raise NotImplementedError

    def perform(self, client, f, value):
        """Makes a call: the value of its :ok. It raises NotDone where the call is known to have changed nothing."""
        raise NotImplementedError


class Register(Workload):
    """One value: SET, GET, and a script that compares and sets. A key that is not there reads as nil."""

    shares = {"read": 2, "write": 1, "cas": 1}
    script = "if redis.call('GET', KEYS[1]) ~= ARGV[1] then return 0 end redis.call('SET', KEYS[1], ARGV[2]) return 1"

    def __init__(self, thread, given):
        super().__init__(thread, given)
        self.fresh, self.seen = thread, 0

    def draw(self, dice):
        old, new = dice.randrange(5), dice.randrange(5)
        if self.given.values == "unique":
            self.fresh += self.given.threads
            old, new = self.seen, self.fresh
        f = self.draw_function(dice)
        return f, {"read": None, "write": new, "cas": (old, new)}[f]

    def perform(self, client, f, value):
        if f == "read":
            text = client.read("GET", client.key)
            value = None if text is None else int(text)
        elif f == "write":
            client.write("SET", client.key, value)
        elif not client.write("EVAL", self.script, 1, client.key, *value):
            raise NotDone("did-not-match")
        if value is not None:
            self.seen = value[1] if f == "cas" else value
        return value


class Set(Workload):
    """Members: SADD and SMEMBERS. None is added twice."""

    shares = {"read": 0, "add": 1}
    is_read_last = True

    def __init__(self, thread, given):
        super().__init__(thread, given)
        self.members = itertools.count(thread, given.threads)

    def draw(self, dice):
        f = self.draw_function(dice)
        return f, next(self.members) if f == "add" else None

    def perform(self, client, f, value):
        if f == "read":
            return {int(member) for member in client.read("SMEMBERS", client.key)}
        client.write("SADD", client.key, value)
        return value


class Counter(Workload):
    """A sum: INCRBY and GET. A key that is not there reads as 0."""

    shares = {"read": 1, "add": 1}
    is_read_last = True

    def draw(self, dice):
        f = self.draw_function(dice)
        return f, dice.randint(1, 5) if f == "add" else None

    def perform(self, client, f, value):
        if f == "read":
            return int(client.read("GET", client.key) or 0)
        client.write("INCRBY", client.key, value)
        return value


class UniqueIds(Workload):
    """Numbers that rise: GET, and SET to one more, as a client does that knows no INCR. Between the two others may do the same."""

    shares = {"generate": 1}

    def draw(self, dice):
        return self.draw_function(dice), None

    def perform(self, client, f, value):
        number = int(client.read("GET", client.key) or 0) + 1
        client.write("SET", client.key, number)
        return number


WORKLOADS = {"register": Register, "set": Set, "counter": Counter, "unique-ids": UniqueIds}


def written(value):
    """A value as EDN."""
    if isinstance(value, tuple):
        return "[{} {}]".format(*value)
    if isinstance(value, set):
        return "#{" + " ".join(map(str, sorted(value))) + "}"
    return "nil" if value is None else value


class History:
    """The operations of a run, each a line, in the order in which they happened."""

    def __init__(self):
        self.lock, self.lines, self.start = threading.Lock(), [], time.monotonic_ns()

    def append(self, kind, process, f, value, error=None):
        with self.lock:
            now = time.monotonic_ns() - self.start
            line = f":index {len(self.lines)}, :type :{kind}, :process {process}, :f :{f}, :value {written(value)}, :time {now}"
            self.lines.append("{" + line + (f", :error :{error}" if error else "") + "}")


class Client:
    """A client thread, which is one process after another."""

    def __init__(self, thread, given, pair, history):
        self.thread, self.given, self.pair, self.history = thread, given, pair, history
        self.workload, self.key = WORKLOADS[given.workload](thread, given), f"jeprun-{given.workload}"
        self.process, self.dice, self.connections = thread, random.Random(f"{given.seed} {thread}"), {}

    def ask(self, role, words):
        port = self.pair.ports[role]
        if port not in self.connections:
            self.connections[port] = Connection(port, self.given.limit / 1000)
        return self.connections[port].ask(*words)

    def read(self, *words):
        """The reply to a command that changes nothing, from the server that reads go to."""
        return self.ask(self.given.read_from, words)

    def write(self, *words):
        """The primary's reply to a command."""
        return self.ask("primary", words)

    def close(self):
        while self.connections:
            self.connections.popitem()[1].close()

    def outcome(self, f, value):
        """Makes a call: the type of its completion, the value, and why it isn't :ok."""
        try:
            return "ok", self.workload.perform(self, f, value), None
        except NotDone as why:
            return "fail", value, why
        except TimeoutError:
            return "info", value, "timeout"
        except ConnectionRefusedError:
            kind, error = "fail", "refused"
        except OSError:
            kind, error = "fail" if f == "read" else "info", "connection-lost"
        self.close()
        return kind, value, error

    def call(self, f, value):
        """Makes a call, and records it: whether it is :ok."""
        self.history.append("invoke", self.process, f, value)
        kind, value, error = self.outcome(f, value)
        self.history.append(kind, self.process, f, value, error)
        if kind == "info":
            self.process += self.given.threads
            self.close()
        return kind == "ok"

    def run(self, over):
        """Makes the calls of this thread, and waits a while before each."""
        for _ in range(self.thread, self.given.calls, self.given.threads):
            if over.wait(self.dice.uniform(0, self.given.gap / 500)):
                break
            self.call(*self.workload.draw(self.dice))


def run_nemesis(given, pair, history, over):
    """Begins and withdraws the faults in turn, until the calls are over."""
    for fault in itertools.cycle(given.fault):
        if over.wait(given.fault_gap / 1000):
            break
        for f, step in zip(("begin", "withdraw"), FAULTS[fault]):
            history.append("info", ":nemesis", f, f":{fault}")
            step(pair)
            history.append("info", ":nemesis", f, f":{fault}")
            if f == "begin":
                over.wait(given.fault_length / 1000)


def read_last(clients):
    """Reads once more where the workload wants that, by the first client that gets an answer."""
    for client in clients:
        if not client.workload.is_read_last or client.call("read", None):
            break


def record(given, pair):
    """The lines of the history of a run."""
    pair.catch_up()
    pair.ask("primary", "DEL", f"jeprun-{given.workload}")
    pair.catch_up()
    history, over = History(), threading.Event()
    clients = [Client(thread, given, pair, history) for thread in range(given.threads)]
    with concurrent.futures.ThreadPoolExecutor(given.threads + 1) as pool:
        nemesis = pool.submit(run_nemesis, given, pair, history, over)
        runs = [pool.submit(client.run, over) for client in clients]
        try:
            for run in runs:
                run.result()
            if given.last_read == "at-once":
                read_last(clients)
        finally:
            over.set()
        nemesis.result()
    if given.last_read == "healed":
        pair.catch_up()
        read_last(clients)
    for client in clients:
        client.close()
    return history.lines


def options():
    """What was asked for."""
    words = argparse.ArgumentParser(description="Records a history of a real Redis.")
    words.add_argument("--workload", choices=WORKLOADS, default="register", help="what Redis is taken for (register)")
    words.add_argument("--threads", type=int, default=3, help="client threads (3)")
    words.add_argument("--calls", type=int, default=40, help="of all threads together (40)")
    words.add_argument("--seed", type=int, default=1, help="of the calls (1)")
    words.add_argument("--mix", type=int, nargs="+", metavar="N", help="shares of the workload's functions (README.md)")
    words.add_argument("--values", choices=("small", "unique"), default="small", help="of a register: 0 to 4, or none twice (small)")
    words.add_argument("--read-from", choices=("primary", "replica"), default="primary", help="where reads go (primary)")
    words.add_argument("--last-read", choices=("healed", "at-once"), default="healed", help="behind the faults, or not (healed)")
    words.add_argument("--limit", type=float, default=100, metavar="MS", help="of a client's patience with a server (100)")
    words.add_argument("--gap", type=float, default=20, metavar="MS", help="before each call of a thread, on average (20)")
    words.add_argument("--fault", choices=FAULTS, action="append", default=[], help="may be given again, for another (none)")
    words.add_argument("--fault-gap", type=float, default=150, metavar="MS", help="before each fault (150)")
    words.add_argument("--fault-length", type=float, default=250, metavar="MS", help="how long each is active (250)")
    words.add_argument("--servers", type=int, nargs=2, metavar=("PRIMARY", "REPLICA"), help="ports of two that run already")
    given = words.parse_args()
    shares = WORKLOADS[given.workload].shares
    given.mix = given.mix or list(shares.values())
    if len(given.mix) != len(shares) or min(given.mix) < 0 or not any(given.mix):
        words.error(f"--mix takes a share of each of these: {', '.join(shares)}")
    if given.servers and any(it.startswith(("pause", "kill")) for it in given.fault):
        words.error("only servers that are started here can be paused or killed")
    return given


def main():
    given = options()
    signal.signal(signal.SIGTERM, lambda *_: sys.exit(1))
    with contextlib.nullcontext(Pair(given.servers)) if given.servers else new_pair() as pair:
        print("\n".join(record(given, pair)))


if __name__ == "__main__":
    main()
