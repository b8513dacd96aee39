#!/usr/bin/env python3
"""txn-list-append, right: all lists are one value of the service `lin-kv`, which a transaction compares and sets."""

import copy
from typing import Any

from node import KEY_DOES_NOT_EXIST, PRECONDITION_FAILED, TXN_CONFLICT, Body, Error, Node

node = Node()
Lists = dict[str, list[int]]


def held() -> Lists:
    try:
        lists: Lists = node.call("lin-kv", {"type": "read", "key": "root"})["value"]
        return lists
    except Error as error:
        if error.code == KEY_DOES_NOT_EXIST:
            return {}
        raise


def apply(lists: Lists, transaction: list[list[Any]]) -> list[list[Any]]:
    """Does a transaction to the lists, and gives it with what its reads saw."""
    done = []
    for function, key, element in transaction:
        if function == "append":
            lists.setdefault(str(key), []).append(element)
            done.append([function, key, element])
        else:
            done.append([function, key, copy.copy(lists.get(str(key)))])
    return done


@node.on("txn")
def txn(body: Body) -> Body:
    before = held()
    after = copy.deepcopy(before)
    done = apply(after, body["txn"])
    if after != before:
        change = {"type": "cas", "key": "root", "from": before, "to": after, "create_if_not_exists": True}
        try:
            node.call("lin-kv", change)
        except Error as error:
            if error.code == PRECONDITION_FAILED:
                raise Error(TXN_CONFLICT, "another transaction came before this one") from error
            raise
    return {"type": "txn_ok", "txn": done}


node.run()
