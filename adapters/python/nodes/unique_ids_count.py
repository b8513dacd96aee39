#!/usr/bin/env python3
"""unique-ids, wrong: the node's name and a number, which begins anew where the node does."""

import itertools

from node import Body, Node

node = Node()
numbers = itertools.count()


@node.on("generate")
def generate(body: Body) -> Body:
    return {"type": "generate_ok", "id": f"{node.name}-{next(numbers)}"}


node.run()
