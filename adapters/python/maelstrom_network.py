"""The network between Maelstrom's nodes: what carries their messages, and the services that they find on it.

A service is asked by the body of a message, and gives the body of its answer. A body that lacks what the service needs
is a `KeyError`.
"""

import contextlib
import heapq
import itertools
import json
import pathlib
import queue
import random
import threading
import time
from typing import Any, Protocol

import jeprun

Body = dict[str, Any]
Message = dict[str, Any]
State = dict[str, Any]
Input = queue.SimpleQueue[bytes | None]  # lines for a process of a node, and None at its end
TOLD_COMPLAINTS = 10


# --- services


class Service(Protocol):
    def handle(self, source: str, body: Body) -> Body:
        """Answers what a node asks."""


def error(code: int, text: str) -> Body:
    return {"type": "error", "code": code, "text": text}


def text_of(value: Any) -> str:
    """A text by which values of JSON are told apart: to Python 1 and true are equal, and a list can't be a key."""
    return json.dumps(value, sort_keys=True)


def apply(state: State, body: Body) -> Body:
    """Does to a state what a key-value store is asked to do, and gives the answer."""
    kind = body["type"]
    if kind not in ("read", "write", "cas"):
        return error(10, f"a key-value store has no {kind}")
    key = text_of(body["key"])
    if kind == "write":
        state[key] = body["value"]
        return {"type": "write_ok"}
    if key not in state and not (kind == "cas" and body.get("create_if_not_exists")):
        return error(20, f"there is no key {key}")
    if kind == "read":
        return {"type": "read_ok", "value": state[key]}
    expected = text_of(body["from"])
    if key in state and text_of(state[key]) != expected:
        return error(22, f"expected {expected}, but had {text_of(state[key])}")
    state[key] = body["to"]
    return {"type": "cas_ok"}


class LinearizableStore:
    """`lin-kv`: there is one state."""

    def __init__(self) -> None:
        self._state: State = {}

    def handle(self, source: str, body: Body) -> Body:
        return apply(self._state, body)


class SequentialStore:
    """`seq-kv`: a node's read may see an old state, but none older than what this node saw last. All else is done to
    the newest state, and the node has then seen that."""

    KEPT = 32  # states

    def __init__(self) -> None:
        self._states: list[State] = [{}]
        self._oldest = 0
        self._seen: dict[str, int] = {}

    def handle(self, source: str, body: Body) -> Body:
        newest = self._oldest + len(self._states) - 1
        if body["type"] == "read":
            chosen = random.randint(max(self._oldest, self._seen.get(source, 0)), newest)
            self._seen[source] = chosen
            return apply(self._states[chosen - self._oldest], body)
        state = dict(self._states[-1])
        answer = apply(state, body)
        self._states.append(state)
        self._seen[source] = newest + 1
        if len(self._states) > self.KEPT:
            del self._states[0]
            self._oldest += 1
        return answer


class LastWriteStore:
    """`lww-kv`: each call goes to one of three replicas, which have clocks of their own, and now and then one takes
    over what another one has. Of two values the one with the later time stays. So a read may be old, and a write that
    was answered may be lost."""

    def __init__(self) -> None:
        self._replicas: list[dict[str, tuple[int, int, Any]]] = [{}, {}, {}]
        self._clocks = [0, 0, 0]

    def handle(self, source: str, body: Body) -> Body:
        place, key = random.randrange(3), text_of(body.get("key"))
        replica = self._replicas[place]
        state = {key: replica[key][2]} if key in replica else {}
        answer = apply(state, body)
        if answer["type"] in ("write_ok", "cas_ok"):
            self._clocks[place] += 1
            replica[key] = self._clocks[place], place, state[key]
        if random.random() < 0.5:
            self._take_over(random.randrange(3), place)
        return answer

    def _take_over(self, place: int, source: int) -> None:
        self._clocks[place] = max(self._clocks[place], self._clocks[source])
        replica = self._replicas[place]
        for key, cell in self._replicas[source].items():
            replica[key] = max(replica.get(key, cell), cell, key=lambda cell: cell[:2])


class TimestampOracle:
    """`lin-tso`: each number that it gives is greater than all before."""

    def __init__(self) -> None:
        self._numbers = itertools.count()

    def handle(self, source: str, body: Body) -> Body:
        if body["type"] != "ts":
            return error(10, f"a timestamp oracle has no {body['type']}")
        return {"type": "ts_ok", "ts": next(self._numbers)}


SERVICES: dict[str, type[Service]] = {
    "lin-kv": LinearizableStore,
    "seq-kv": SequentialStore,
    "lww-kv": LastWriteStore,
    "lin-tso": TimestampOracle,
}


# --- messages


class Malformed(jeprun.Unsuitable):
    """A node wrote what is no message, or what is no answer to a call."""


def message_of(line: bytes, known: set[str]) -> Message:
    """The message that a line of a node's output is."""

    def refuse(constant: str) -> None:
        raise ValueError(f"{constant}, which Python takes, is no JSON")

    try:
        message = json.loads(line, parse_constant=refuse)
    except (ValueError, RecursionError) as fault:
        raise Malformed("no JSON") from fault
    if not isinstance(message, dict):
        raise Malformed("no object")
    for key in "src", "dest":
        if not isinstance(message.get(key), str):
            raise Malformed(f"no {key}")
    if not isinstance(message.get("body"), dict) or not isinstance(message["body"].get("type"), str):
        raise Malformed("no body with a type")
    if message["dest"] not in known:
        raise Malformed(f"nobody is called {message['dest']}")
    return message


def shown(line: bytes) -> str:
    """A line of a node's output as a part of one line, whatever is in it."""
    text = line.decode(errors="replace").rstrip("\n")
    return repr(text if len(text) <= 200 else text[:200] + " ..")


# --- the network


class Network:
    """Carries messages between nodes, services and clients. Links between nodes have cells; others have no faults."""

    def __init__(self, names: list[str], latency: float, journal: pathlib.Path | None) -> None:
        self.cells: dict[tuple[str, str], jeprun.LinkCell] = {}
        self.complaints = 0
        self._latency = latency
        self._inputs: dict[str, Input] = {}  # of each node that has a process
        self._clients: dict[str, queue.SimpleQueue[Body]] = {}
        self._services = {name: service() for name, service in SERVICES.items()}
        self._known = {*names, *self._services}  # also clients that left: what comes for them late is no mistake
        self._journal = open(journal, "wb", buffering=0) if journal else None
        self._journal_length = 0
        self._began = time.monotonic()
        self._ids = itertools.count()
        self._client_numbers = itertools.count(1)
        self._order = threading.RLock()  # messages arrive one after another
        self._under_way: list[tuple[float, int, str, Message]] = []
        self._changed = threading.Condition()
        self._is_over = False
        threading.Thread(target=self._carry, daemon=True).start()

    def join(self) -> tuple[str, queue.SimpleQueue[Body]]:
        """A name for a client, and where what is sent to it arrives."""
        with self._order:
            name = f"c{next(self._client_numbers)}"
            self._clients[name] = queue.SimpleQueue()
            self._known.add(name)
            return name, self._clients[name]

    def leave(self, client: str) -> None:
        with self._order:
            self._clients.pop(client, None)

    def begin(self, node: str, given: Input, client: str, body: Body) -> None:
        """From now on a node has a process. What is sent to it arrives there, and before all else this message."""
        with self._order:
            self._inputs[node] = given
            self._arrive(client, {"id": next(self._ids), "src": client, "dest": node, "body": body})

    def end(self, node: str, given: Input) -> None:
        """From now on a node has no process, unless another one has begun."""
        with self._order:
            if self._inputs.get(node) is given:
                del self._inputs[node]

    def complain(self, text: str) -> None:
        """Says on a line what a node did wrong. It may do so with each message, so only the first times are told."""
        with self._order:
            self.complaints += 1
            if self.complaints <= TOLD_COMPLAINTS:
                jeprun.complain(text)

    def take(self, node: str, number: int, line: bytes) -> None:
        """Sends what a node wrote, as the line of this number."""
        try:
            self.send(node, message_of(line, self._known))
        except Malformed as malformed:
            self.complain(f"{node}: line {number} of its output is no message: {malformed}: {shown(line)}")

    def send(self, sender: str, message: Message) -> int:
        """Puts a message on its way, and gives its number. Its link is that of who wrote it, whatever it says of its
        source."""
        number = next(self._ids)
        message = {"id": number, **{key: message[key] for key in ("src", "dest", "body")}}
        seconds = random.uniform(0, 2 * self._latency) + self._cell(sender, message).delay / 1000
        with self._changed:
            heapq.heappush(self._under_way, (time.monotonic() + seconds, number, sender, message))
            self._changed.notify()
        return number

    def close(self) -> None:
        """Carries nothing any more."""
        with self._changed:
            self._is_over = True
            self._changed.notify()
        with self._order:
            if self._journal:
                self._journal.close()
                self._journal = None

    def _cell(self, sender: str, message: Message) -> jeprun.LinkCell:
        return self.cells.get((sender, message["dest"]), jeprun.LinkCell())

    def _carry(self) -> None:
        """Lets messages arrive, each at its time."""
        while True:
            with self._changed:
                while not self._is_over and (wait := self._until_next()) != 0:
                    self._changed.wait(wait)
                if self._is_over:
                    return
                _, _, sender, message = heapq.heappop(self._under_way)
            try:
                self._arrive(sender, message)
            except Exception as fault:  # as of a message that is too deep to be written; others are still carried
                self.complain(f"{sender}: a message to {message['dest']} can't be carried: {fault!r}")

    def _until_next(self) -> float | None:
        """The seconds until the next message arrives, or None where none is under way."""
        return max(0.0, self._under_way[0][0] - time.monotonic()) if self._under_way else None

    def _arrive(self, sender: str, message: Message) -> None:
        """Hands a message over, unless its link is cut or loses it. What counts is the link's cell at this moment."""
        cell = self._cell(sender, message)
        with self._order:
            is_lost = random.randrange(20) < cell.loss
            fate = "cut" if cell.cut else "lost" if is_lost else self._hand_over(message)
            self._note({"seconds": round(time.monotonic() - self._began, 6), "fate": fate, "message": message})

    def _note(self, record: dict[str, Any]) -> None:
        """Keeps what became of a message, as long as the disk takes it."""
        if self._journal is None:
            return
        data = json.dumps(record).encode() + b"\n"
        try:
            written = self._journal.write(data)
        except OSError:
            written = 0
        self._journal_length += len(data)
        if written != len(data):
            with contextlib.suppress(OSError), self._journal:
                self._journal.truncate(self._journal_length - len(data))  # without the part of a line
            self._journal = None
            jeprun.complain("messages.jsonl can't be written: from here on no messages are kept")

    def _hand_over(self, message: Message) -> str:
        """Gives a message to its destination, and says what became of it."""
        source, destination, body = message["src"], message["dest"], message["body"]
        if destination in self._inputs:
            self._inputs[destination].put(json.dumps(message).encode() + b"\n")
        elif destination in self._clients:
            self._clients[destination].put(body)
        elif destination in self._services:
            self._answer(message, self._served(source, destination, body))
        elif source in self._clients:
            self._answer(message, error(1, f"{destination} is not running"))
            return "refused"
        else:
            return "dropped"
        return "delivered"

    def _served(self, source: str, service: str, body: Body) -> Body:
        try:
            return self._services[service].handle(source, body)
        except KeyError as missing:
            return error(12, f"{body['type']} needs {missing.args[0]}")

    def _answer(self, message: Message, body: Body) -> None:
        reply = {"in_reply_to": message["body"]["msg_id"]} if "msg_id" in message["body"] else {}
        answer = {"src": message["dest"], "dest": message["src"], "body": {**body, **reply}}
        self.send(message["dest"], answer)


class Caller:
    """A client of the network, which asks one question after another."""

    def __init__(self, network: Network) -> None:
        self._network = network
        self._name, self._answers = network.join()
        self._number = 0

    def begin(self, node: str, given: Input, body: Body) -> None:
        """Asks a node by the first message that its process gets."""
        self._number += 1
        self._network.begin(node, given, self._name, {**body, "msg_id": self._number})

    def ask(self, node: str, body: Body) -> int:
        """Asks a node, and gives the number of the message that does."""
        self._number += 1
        message = {"src": self._name, "dest": node, "body": {**body, "msg_id": self._number}}
        return self._network.send(self._name, message)

    def answer(self, seconds: float) -> Body | None:
        """The answer to the last question, if it comes in time. Those to earlier ones are dropped."""
        end = time.monotonic() + seconds
        while True:
            try:
                body = self._answers.get(timeout=max(0.0, end - time.monotonic()))
            except queue.Empty:
                return None
            if body.get("in_reply_to") == self._number:
                return body

    def leave(self) -> None:
        self._network.leave(self._name)
