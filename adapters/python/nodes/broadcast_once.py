#!/usr/bin/env python3
"""broadcast, wrong: each node hands a new message to its neighbours once, so what the network loses is gone."""

from node import Body, Node

node = Node()
seen: set[int] = set()
neighbours: list[str] = []


@node.on("topology")
def topology(body: Body) -> Body:
    neighbours[:] = body["topology"][node.name]
    return {"type": "topology_ok"}


@node.on("broadcast")
def broadcast(body: Body) -> Body:
    with node.lock:
        is_new = body["message"] not in seen
        seen.add(body["message"])
    if is_new:
        for neighbour in neighbours:
            node.send(neighbour, {"type": "broadcast", "message": body["message"]})
    return {"type": "broadcast_ok"}


@node.on("read")
def read(body: Body) -> Body:
    with node.lock:
        return {"type": "read_ok", "messages": sorted(seen)}


node.run()
