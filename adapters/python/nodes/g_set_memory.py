#!/usr/bin/env python3
"""g-set, wrong: an add is answered when this node has the element, in its memory, and others hear of it later.

It is the set of Maelstrom's guide. No partition harms it, but a node that is killed takes with it what it had not sent.
"""

from node import Body, Node

node = Node()
elements: set[int] = set()


@node.on("add")
def add(body: Body) -> Body:
    with node.lock:
        elements.add(body["element"])
    return {"type": "add_ok"}


@node.on("merge")
def merge(body: Body) -> None:
    with node.lock:
        elements.update(body["elements"])


@node.on("read")
def read(body: Body) -> Body:
    with node.lock:
        return {"type": "read_ok", "value": sorted(elements)}


def tell_others() -> None:
    with node.lock:
        held = sorted(elements)
    for other in node.others:
        node.send(other, {"type": "merge", "elements": held})


node.every(1, tell_others)
node.run()
