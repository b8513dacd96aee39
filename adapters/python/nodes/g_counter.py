#!/usr/bin/env python3
"""g-counter, right: the sum is a key of the service `seq-kv`, and an add changes it by comparing and setting."""

import secrets

from node import KEY_DOES_NOT_EXIST, PRECONDITION_FAILED, Body, Error, Node

node = Node()


def held() -> int:
    try:
        value: int = node.call("seq-kv", {"type": "read", "key": "sum"})["value"]
        return value
    except Error as error:
        if error.code == KEY_DOES_NOT_EXIST:
            return 0
        raise


@node.on("add")
def add(body: Body) -> Body:
    while True:
        before = held()
        change = {"type": "cas", "key": "sum", "from": before, "to": before + body["delta"]}
        try:
            node.call("seq-kv", {**change, "create_if_not_exists": True})
            return {"type": "add_ok"}
        except Error as error:
            if error.code != PRECONDITION_FAILED:
                raise


@node.on("read")
def read(body: Body) -> Body:
    # A sequential store may answer from the past, but from none before this node's own last write.
    node.call("seq-kv", {"type": "write", "key": f"last read of {node.name}", "value": secrets.token_hex(8)})
    return {"type": "read_ok", "value": held()}


node.run()
