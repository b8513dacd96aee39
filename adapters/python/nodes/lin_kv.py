#!/usr/bin/env python3
"""lin-kv, right: each node hands what it is asked to the service `lin-kv`, and its answer back."""

from node import Body, Node

node = Node()


def hand_on(body: Body) -> Body:
    answer = node.call("lin-kv", body)
    del answer["in_reply_to"]
    return answer


for kind in "read", "write", "cas":
    node.on(kind)(hand_on)
node.run()
