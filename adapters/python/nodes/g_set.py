#!/usr/bin/env python3
"""g-set, right: an add is answered when a majority has the element, and the nodes send each other all that they have.

So a node that is killed, and has nothing when it starts again, soon gets back all that it had said yes to.
"""

from node import TIMEOUT, Body, Error, Node

node = Node()
elements: set[int] = set()


@node.on("add")
def add(body: Body) -> Body:
    with node.lock:
        elements.add(body["element"])
    missing = set(node.others)
    for _ in range(5):
        if 2 * (1 + len(node.others) - len(missing)) > 1 + len(node.others):
            return {"type": "add_ok"}
        missing -= node.ask(missing, {"type": "merge", "elements": [body["element"]]}, 1, 0.2).keys()
    raise Error(TIMEOUT, "no majority said that it has the element")


@node.on("merge")
def merge(body: Body) -> Body:
    with node.lock:
        elements.update(body["elements"])
    return {"type": "merge_ok"}


@node.on("read")
def read(body: Body) -> Body:
    with node.lock:
        return {"type": "read_ok", "value": sorted(elements)}


def tell_others() -> None:
    with node.lock:
        held = sorted(elements)
    for other in node.others:
        node.send(other, {"type": "merge", "elements": held})


node.every(0.25, tell_others)
node.run()
