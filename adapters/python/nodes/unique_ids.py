#!/usr/bin/env python3
"""unique-ids, right: the node's name, random bits of this start of the node, and a number."""

import itertools
import secrets

from node import Body, Node

node = Node()
start = secrets.token_hex(8)
numbers = itertools.count()


@node.on("generate")
def generate(body: Body) -> Body:
    return {"type": "generate_ok", "id": f"{node.name}-{start}-{next(numbers)}"}


node.run()
