#!/usr/bin/env python3
"""lin-kv, wrong: each node answers reads from a cache, which nobody tells of the writes of other nodes."""

from node import Body, Node

node = Node()
cache: dict[int, int] = {}


@node.on("read")
def read(body: Body) -> Body:
    key = body["key"]
    if key not in cache:
        cache[key] = node.call("lin-kv", {"type": "read", "key": key})["value"]
    return {"type": "read_ok", "value": cache[key]}


@node.on("write")
def write(body: Body) -> Body:
    node.call("lin-kv", body)
    cache[body["key"]] = body["value"]
    return {"type": "write_ok"}


@node.on("cas")
def cas(body: Body) -> Body:
    node.call("lin-kv", body)
    cache[body["key"]] = body["to"]
    return {"type": "cas_ok"}


node.run()
