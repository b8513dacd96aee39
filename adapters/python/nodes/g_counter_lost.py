#!/usr/bin/env python3
"""g-counter, wrong: an add reads the sum and writes a greater one, so of two adds at once one is lost."""

from node import KEY_DOES_NOT_EXIST, Body, Error, Node

node = Node()


def held() -> int:
    try:
        value: int = node.call("lin-kv", {"type": "read", "key": "sum"})["value"]
        return value
    except Error as error:
        if error.code == KEY_DOES_NOT_EXIST:
            return 0
        raise


@node.on("add")
def add(body: Body) -> Body:
    node.call("lin-kv", {"type": "write", "key": "sum", "value": held() + body["delta"]})
    return {"type": "add_ok"}


@node.on("read")
def read(body: Body) -> Body:
    return {"type": "read_ok", "value": held()}


node.run()
