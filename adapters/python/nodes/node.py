"""What the nodes beside this file share: Maelstrom's protocol, messages as lines of JSON on standard input and output.

A program makes a `Node`, says with `@node.on("TYPE")` what answers a message of that type, and calls `node.run()`.
"""

import itertools
import json
import queue
import sys
import threading
import time
from collections.abc import Callable, Iterable
from typing import Any

Body = dict[str, Any]
Handler = Callable[[Body], Body | None]


class Error(Exception):
    """An error of Maelstrom's list. Who asked gets it as the answer."""

    def __init__(self, code: int, text: str) -> None:
        super().__init__(text)
        self.code = code
        self.text = text


TIMEOUT, CRASH, KEY_DOES_NOT_EXIST, PRECONDITION_FAILED, TXN_CONFLICT = 0, 13, 20, 22, 30


class Node:
    def __init__(self) -> None:
        self.name = ""
        self.others: list[str] = []
        self.lock = threading.RLock()  # for what a program keeps: each message is answered on a thread of its own
        self._output = threading.Lock()
        self._ids = itertools.count(1)
        self._handlers: dict[str, Handler] = {"init": self._init}
        self._waiting: dict[int, tuple[str, queue.SimpleQueue[tuple[str, Body]]]] = {}

    def on(self, kind: str) -> Callable[[Handler], Handler]:
        """Says that a function answers messages of this type."""

        def keep(handler: Handler) -> Handler:
            self._handlers[kind] = handler
            return handler

        return keep

    def send(self, destination: str, body: Body) -> None:
        """Sends a message, and waits for no answer."""
        line = json.dumps({"src": self.name, "dest": destination, "body": body})
        with self._output:
            print(line, flush=True)

    def ask(self, destinations: Iterable[str], body: Body, enough: int, seconds: float) -> dict[str, Body]:
        """Asks several nodes at once, and gives the answers of so many of them, or of those that came in time."""
        answers: queue.SimpleQueue[tuple[str, Body]] = queue.SimpleQueue()
        asked = []
        for destination in destinations:
            asked.append(next(self._ids))
            self._waiting[asked[-1]] = destination, answers
            self.send(destination, {**body, "msg_id": asked[-1]})
        got: dict[str, Body] = {}
        end = time.monotonic() + seconds
        try:
            while len(got) < enough:
                source, answer = answers.get(timeout=max(0.0, end - time.monotonic()))
                got[source] = answer
        except queue.Empty:
            pass
        for identifier in asked:
            self._waiting.pop(identifier, None)
        return got

    def call(self, destination: str, body: Body, seconds: float = 0.5) -> Body:
        """Asks one node or service. An error that it answers is raised, and so is a timeout."""
        answer = self.ask([destination], body, 1, seconds).get(destination)
        if answer is None:
            raise Error(TIMEOUT, f"{destination} did not answer")
        if answer["type"] == "error":
            raise Error(answer["code"], answer.get("text", ""))
        return answer

    def every(self, seconds: float, work: Callable[[], None]) -> None:
        """Does some work again and again, from now on."""

        def repeat() -> None:
            while True:
                time.sleep(seconds)
                work()

        threading.Thread(target=repeat, daemon=True).start()

    def run(self) -> None:
        """Answers messages until the input ends."""
        for line in sys.stdin:
            message = json.loads(line)
            waiting = self._waiting.pop(message["body"].get("in_reply_to"), None)
            if waiting is not None:
                waiting[1].put((waiting[0], message["body"]))
            elif "in_reply_to" not in message["body"]:
                threading.Thread(target=self._answer, args=(message,), daemon=True).start()

    def _init(self, body: Body) -> Body:
        self.name = body["node_id"]
        self.others = [name for name in body["node_ids"] if name != self.name]
        return {"type": "init_ok"}

    def _answer(self, message: Body) -> None:
        body = message["body"]
        handler = self._handlers.get(body["type"])
        try:
            if handler is None:
                raise Error(10, f"no message of type {body['type']} is known")
            answer = handler(body)
        except Error as error:
            answer = {"type": "error", "code": error.code, "text": error.text}
        if answer is not None and "msg_id" in body:
            self.send(message["src"], {**answer, "in_reply_to": body["msg_id"]})
