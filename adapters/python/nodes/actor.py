"""What nodes share that wait for nothing: such a node is an *actor*, which is told of messages and of moments that
have come.

A file of an actor has a function `start`, which makes the actor from the world that it is in and the words that stand
behind `--`. All that an actor knows of the world is a `World`. Here is that of a process, which speaks lines of JSON on
standard input and output; simulated.py has one in virtual time. So the same file is run by either of them as it stands.
"""

import heapq
import itertools
import json
import os
import pathlib
import random
import select
import sys
import time
from collections.abc import Callable
from typing import Any, Protocol

Body = dict[str, Any]
Work = Callable[[], None]
# What a process stores is in the folder that this variable of its environment names; maelstrom.py sets it.
FOLDER = "JEPRUN_MAELSTROM_NODE"


class World(Protocol):
    """What an actor may use. It has no thread, no clock and no random numbers but these."""

    name: str
    others: list[str]
    random: random.Random

    def now(self) -> float:
        """The seconds on the node's clock, which a fault may set ahead or back."""

    def send(self, destination: str, body: Body) -> None:
        """Sends a message, which may get lost, come late, or come after one that is sent later."""

    def after(self, seconds: float, work: Work) -> None:
        """Has work done so much later, whatever the clock says then; not if the node is killed before."""

    def store(self, value: Any) -> None:
        """Keeps a value of JSON in the place of the last one. It survives a kill, which all else does not."""

    def stored(self) -> Any:
        """The value that was stored last, also by a node that was killed, or None."""


class Actor(Protocol):
    def receive(self, source: str, body: Body) -> None:
        """Is told of a message."""


Start = Callable[[World, list[str]], Actor]


def answer(world: World, client: str, asked: Body, body: Body) -> None:
    """Answers a message of a client."""
    world.send(client, {**body, "in_reply_to": asked["msg_id"]})


class Process:
    """The world of an actor that is a process."""

    def __init__(self, start: Start, words: list[str]) -> None:
        self.name = ""
        self.others: list[str] = []
        self.random = random.Random()
        self._start, self._words = start, words
        self._actor: Actor | None = None
        self._due: list[tuple[float, int, Work]] = []
        self._numbers = itertools.count()

    def now(self) -> float:
        return time.time()

    def send(self, destination: str, body: Body) -> None:
        print(json.dumps({"src": self.name, "dest": destination, "body": body}), flush=True)

    def after(self, seconds: float, work: Work) -> None:
        heapq.heappush(self._due, (time.monotonic() + seconds, next(self._numbers), work))

    def store(self, value: Any) -> None:
        path = self._file()
        path.parent.mkdir(parents=True, exist_ok=True)
        new = path.with_suffix(".new")
        new.write_text(json.dumps(value))
        new.replace(path)  # so whoever is killed here has the old value or the new one, and no half

    def stored(self) -> Any:
        return json.loads(self._file().read_text()) if self._file().exists() else None

    def run(self) -> None:
        """Hands on messages and moments, one after another, until the input ends."""
        buffered = b""
        while True:
            wait = max(0.0, self._due[0][0] - time.monotonic()) if self._due else None
            if select.select([0], [], [], wait)[0]:
                read = os.read(0, 1 << 16)
                if not read:
                    return
                *lines, buffered = (buffered + read).split(b"\n")
                for line in lines:
                    self._receive(json.loads(line))
            while self._due and self._due[0][0] <= time.monotonic():
                heapq.heappop(self._due)[2]()

    def _file(self) -> pathlib.Path:
        if FOLDER not in os.environ:
            sys.exit(f"{self.name} has no folder to store in: {FOLDER} in the environment names it")
        return pathlib.Path(os.environ[FOLDER], f"{self.name}.json")

    def _receive(self, message: Body) -> None:
        source, body = message["src"], message["body"]
        if body["type"] == "init":
            self.name = body["node_id"]
            self.others = [name for name in body["node_ids"] if name != self.name]
            self._actor = self._start(self, self._words)
            answer(self, source, body, {"type": "init_ok"})
        elif self._actor:
            self._actor.receive(source, body)


def run(start: Start) -> None:
    """Runs an actor as a process."""
    Process(start, sys.argv[1:]).run()
