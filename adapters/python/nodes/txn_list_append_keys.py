#!/usr/bin/env python3
"""txn-list-append, wrong: each list is a key of `lin-kv` by itself. A transaction reads its lists first, one after
another, and changes them at last, one after another, so that others come in between."""

from typing import Any

from node import KEY_DOES_NOT_EXIST, PRECONDITION_FAILED, Body, Error, Node

node = Node()


def held(key: int) -> list[int]:
    try:
        elements: list[int] = node.call("lin-kv", {"type": "read", "key": key})["value"]
        return elements
    except Error as error:
        if error.code == KEY_DOES_NOT_EXIST:
            return []
        raise


def extend(key: int, elements: list[int]) -> None:
    while True:
        before = held(key)
        change = {"type": "cas", "key": key, "from": before, "to": before + elements, "create_if_not_exists": True}
        try:
            node.call("lin-kv", change)
            return
        except Error as error:
            if error.code != PRECONDITION_FAILED:
                raise


@node.on("txn")
def txn(body: Body) -> Body:
    lists = {key: held(key) for key in {key for _, key, _ in body["txn"]}}
    appended: dict[int, list[int]] = {}
    done: list[list[Any]] = []
    for function, key, element in body["txn"]:
        if function == "append":
            appended.setdefault(key, []).append(element)
            done.append([function, key, element])
        else:
            done.append([function, key, lists[key] + appended.get(key, [])])
    for key, elements in appended.items():
        extend(key, elements)
    return {"type": "txn_ok", "txn": done}


node.run()
