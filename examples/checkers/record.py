#!/usr/bin/env python3
"""Records histories of real servers: queues, banks, locks, and sets that are read while they grow.

    /usr/bin/python3 record.py FOLDER [NAME ..]

It writes a file NAME.edn to FOLDER for each of the tests below, or for those that are named. README.md beside it says what each
does and how `jeprun check` judges it. On Debian it needs `apt-get install redis-server postgresql python3-psycopg2`, Python 3.10
or later, and the folders examples/redis and examples/postgresql beside its own. It starts a Redis with a replica, or a
PostgreSQL, for each test, on free ports and in a temporary folder, and stops it at the end; as root it starts PostgreSQL as the
user postgres, which that package makes.

Four client threads make calls, and in some tests a fault comes now and then. A history has one operation a line, in the order in
which they happened, as Jepsen writes it; :time counts nanoseconds. An invocation is recorded before its request is sent, a
completion after its reply came. It is :ok where the call was done, :fail where it is known to have changed nothing, and :info
where the connection was lost on the way; the thread then goes on as a new process. `--seed` decides which calls a thread makes.
When the servers answer it does not decide, so each history is another one.
"""

import argparse
import dataclasses
import pathlib
import signal
import sys
from collections.abc import Callable
from typing import Any

from clients import Client, record

try:
    import on_postgresql
    import on_redis
except ModuleNotFoundError as missing:
    sys.exit(f"record.py: there is no {missing.name}: install python3-psycopg2, and take /usr/bin/python3")


@dataclasses.dataclass(frozen=True)
class Test:
    """What each client is, how many calls it makes, and the fault, with the seconds before each."""

    new_server: Callable[[], Any]
    client: type[Client]
    calls: int
    fault: Callable[[Any], None] | None = None
    fault_gap: float = 0.06


TESTS = {
    "queue-moved": Test(on_redis.new_server, on_redis.MovedQueue, 40, on_redis.kill_connections, 0.1),
    "queue-popped": Test(on_redis.new_server, on_redis.PoppedQueue, 40, on_redis.kill_connections, 0.1),
    "queue-taken-back": Test(on_redis.new_server, on_redis.SlowQueue, 30, on_redis.take_back),
    "queue-ordered": Test(on_redis.new_server, on_redis.OrderedQueue, 40),
    "queue-parted": Test(on_redis.new_server, on_redis.PartedQueue, 40),
    "bank-read-committed": Test(on_postgresql.new_server, on_postgresql.CommittedBank, 40),
    "bank-serializable": Test(on_postgresql.new_server, on_postgresql.Bank, 40),
    "lock": Test(on_redis.new_server, on_redis.Lock, 40),
    "lock-expiring": Test(on_redis.new_server, on_redis.ExpiringLock, 40),
    "set-primary": Test(on_redis.new_server, on_redis.GrowingSet, 30),
    "set-replica": Test(on_redis.new_server, on_redis.ReplicatedSet, 30, on_redis.hold_replication, 0.12),
}


def options():
    """What was asked for."""
    words = argparse.ArgumentParser(description="Records histories of real servers.")
    words.add_argument("folder", type=pathlib.Path, metavar="FOLDER", help="where the histories go; it is made where it is not there")
    words.add_argument("names", nargs="*", metavar="NAME", help=f"a test: {', '.join(TESTS)}; all, where none is named")
    words.add_argument("--seed", type=int, default=1, help="of the calls (1)")
    given = words.parse_args()
    unknown = [name for name in given.names if name not in TESTS]
    if unknown:
        words.error(f"there is no test {unknown[0]}")
    return given


def main():
    given = options()
    signal.signal(signal.SIGTERM, lambda *_: sys.exit(1))
    try:
        given.folder.mkdir(parents=True, exist_ok=True)
        for name in given.names or TESTS:
            test = TESTS[name]
            with test.new_server() as server:
                lines = record(test, server, given.seed)
            (given.folder / f"{name}.edn").write_text("\n".join(lines) + "\n", encoding="utf-8")
            print(f"{name}.edn: {len(lines)} operations", flush=True)
    except OSError as error:
        sys.exit(f"record.py: {error}")


if __name__ == "__main__":
    main()
