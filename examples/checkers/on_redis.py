"""A queue, a lock and a set, each in a Redis with a replica, and faults that the servers are put under."""

import contextlib
import signal
import threading
import time

from clients import Client, NotDone
from servers import PATIENCE, Connection, new_pair

QUEUE, OTHER, TAKEN, LOCK, SET = "jeprun-queue", "jeprun-other", "jeprun-taken", "jeprun-lock", "jeprun-set"
LIMIT = 1  # second that a client waits for a reply
EXPIRY = 50  # milliseconds after which Redis takes a lock away
RELEASE = "return redis.call('GET', KEYS[1]) == ARGV[1] and redis.call('DEL', KEYS[1]) or 0"


@contextlib.contextmanager
def new_server():
    """A primary and its replica, which is there and has what the primary has."""
    with new_pair() as pair:
        pair.catch_up()
        yield pair


class RedisClient(Client):
    def __init__(self, *words):
        super().__init__(*words)
        self.connections = {}

    def ask(self, *words, role="primary"):
        """A server's reply to a command."""
        if role not in self.connections:
            self.connections[role] = Connection(self.server.ports[role], LIMIT)
        try:
            return self.connections[role].ask(*words)
        except OSError:
            self.close()
            raise

    def close(self):
        while self.connections:
            self.connections.popitem()[1].close()


class PoppedQueue(RedisClient):
    """A list: LPUSH puts in at one end, RPOP takes out at the other. No value is put in twice."""

    lists = [QUEUE]

    def draw(self):
        return ("enqueue", next(self.fresh)) if self.dice.random() < 0.5 else ("dequeue", None)

    def perform(self, f, value):
        if f == "enqueue":
            self.ask("LPUSH", QUEUE, value)
            return value
        if f == "drain":
            return [int(text) for key in self.lists for text in iter(lambda: self.ask("RPOP", key), None)]
        text = self.take()
        if text is None:
            raise NotDone("empty")
        return int(text)

    def take(self):
        return self.ask("RPOP", QUEUE)

    def finish(self):
        self.call("drain", None)


class MovedQueue(PoppedQueue):
    """The same, but LMOVE puts what is taken out into a second list, and it stays there until the client has it."""

    lists = [QUEUE, TAKEN]

    def take(self):
        text = self.ask("LMOVE", QUEUE, TAKEN, "RIGHT", "LEFT")
        if text is not None:
            self.work()
            # The client has the value, so it was taken out, whatever becomes of this.
            with contextlib.suppress(OSError):
                self.ask("LREM", TAKEN, 1, text)
        return text

    def work(self):
        """What the client does with the value before it says that it has it."""


class SlowQueue(MovedQueue):
    def work(self):
        time.sleep(self.dice.uniform(0, 0.02))


class OrderedQueue(PoppedQueue):
    """The same list, whose order counts: what finds it empty answers nil, and nothing is drained."""

    def perform(self, f, value):
        if f == "enqueue":
            self.ask("LPUSH", self.end_in(), value)
            return value
        text = self.take()
        return None if text is None else int(text)

    def end_in(self):
        """The list that takes in the next value."""
        return QUEUE

    def finish(self):
        """Nothing is drained: an order has room for what is left."""


class PartedQueue(OrderedQueue):
    """Two such lists, of which each call takes either: a queue with two partitions."""

    def end_in(self):
        return self.dice.choice([QUEUE, OTHER])

    def take(self):
        first, second = self.dice.sample([QUEUE, OTHER], 2)
        return self.ask("RPOP", first) or self.ask("RPOP", second)


class Lock(RedisClient):
    """A key that is there while somebody has the lock, with a token that only the holder knows."""

    expiry = []

    def __init__(self, *words):
        super().__init__(*words)
        self.token = None

    def rest(self):
        # Mostly a holder works for a short time. Now and then it is slow.
        return self.dice.choice([0.01, 0.02, 0.03, 0.03, 0.09]) if self.token else self.dice.uniform(0.01, 0.03)

    def draw(self):
        return "release" if self.token else "acquire", None

    def perform(self, f, value):
        if f == "release":
            token, self.token = self.token, None
            if not self.ask("EVAL", RELEASE, 1, LOCK, token):
                raise NotDone("expired")
        else:
            token = f"{self.thread}-{next(self.fresh)}"
            if not self.ask("SET", LOCK, token, "NX", *self.expiry):
                raise NotDone("taken")
            self.token = token


class ExpiringLock(Lock):
    expiry = ["PX", EXPIRY]


class GrowingSet(RedisClient):
    """Members: SADD, and SMEMBERS while others add. No element is added twice."""

    read_from = "primary"

    def draw(self):
        return ("add", next(self.fresh)) if self.dice.random() < 0.5 else ("read", None)

    def perform(self, f, value):
        if f == "read":
            return {int(member) for member in self.ask("SMEMBERS", SET, role=self.read_from)}
        self.ask("SADD", SET, value)
        return value

    def finish(self):
        self.server.catch_up()
        self.call("read", None)


class ReplicatedSet(GrowingSet):
    read_from = "replica"


def kill_connections(pair):
    """The primary is paused, clients send it requests, it is told to kill their connections, and it is continued. What it does of
    these requests before it comes to the kill it does not answer."""
    with contextlib.closing(Connection(pair.ports["primary"], PATIENCE)) as connection:
        connection.ask("PING")
        pair.send("primary", signal.SIGSTOP)
        time.sleep(0.03)
        threading.Timer(0.01, pair.send, ("primary", signal.SIGCONT)).start()
        connection.ask("CLIENT", "KILL", "TYPE", "normal")


def take_back(pair):
    """What was taken out and not confirmed is put back at the head of the queue: its taker is believed dead."""
    while pair.ask("primary", "LMOVE", TAKEN, QUEUE, "LEFT", "RIGHT"):
        pass


def hold_replication(pair):
    """The replica takes over nothing that the primary writes for 40 milliseconds, and then all of it. It answers reads meanwhile."""
    pair.ask("replica", "CLIENT", "PAUSE", 3600000, "WRITE")
    time.sleep(0.04)
    pair.ask("replica", "CLIENT", "UNPAUSE")
