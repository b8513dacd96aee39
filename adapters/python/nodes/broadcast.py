#!/usr/bin/env python3
"""broadcast, right: each node sends what it has to its neighbours again and again, until they say that they have it."""

from node import Body, Node

node = Node()
seen: set[int] = set()
missing: dict[str, set[int]] = {}  # of each neighbour, what it did not yet say to have


def learn(messages: list[int]) -> None:
    with node.lock:
        new = set(messages) - seen
        seen.update(new)
        for neighbour in missing:
            missing[neighbour] |= new


@node.on("topology")
def topology(body: Body) -> Body:
    with node.lock:
        missing.update({neighbour: set(seen) for neighbour in body["topology"][node.name]})
    return {"type": "topology_ok"}


@node.on("broadcast")
def broadcast(body: Body) -> Body:
    learn([body["message"]])
    return {"type": "broadcast_ok"}


@node.on("read")
def read(body: Body) -> Body:
    with node.lock:
        return {"type": "read_ok", "messages": sorted(seen)}


@node.on("gossip")
def gossip(body: Body) -> Body:
    learn(body["messages"])
    return {"type": "gossip_ok"}


def tell_neighbours() -> None:
    with node.lock:
        told = {neighbour: sorted(messages) for neighbour, messages in missing.items() if messages}
    for neighbour, messages in told.items():
        if node.ask([neighbour], {"type": "gossip", "messages": messages}, 1, 0.1):
            with node.lock:
                missing[neighbour] -= set(messages)


node.every(0.1, tell_neighbours)
node.run()
