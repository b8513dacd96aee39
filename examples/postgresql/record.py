#!/usr/bin/env python3
"""Records a history of transactions of a real PostgreSQL, Jepsen's workload list-append.

    /usr/bin/python3 record.py --isolation "repeatable read" > history.edn

It starts a server of its own on a free port and in a temporary folder, and stops it at the end; or it takes one that runs
already, by `--dsn`, and drops and makes its table `jeprun_lists` there. On Debian it needs `apt-get install postgresql
python3-psycopg2`; as root it starts the server as the user postgres, which that package makes. `--help` tells the options.

Each client thread does transactions of one to four micro-operations: `[:r K nil]` reads the list of a key, `[:append K E]` puts an
element at its end. A list is a text in one row. No element is appended to a key twice, and a key is used until it has had so
many appends. Between micro-operations a client rests a little, so that transactions overlap.

It writes the history as Jepsen does, one operation a line, in the order in which they happened; :time counts nanoseconds. A
transaction is :ok where its COMMIT was answered, :fail where the server refused it, and :info where the connection was lost on the
way; the thread then goes on as a new process.
"""

import argparse
import contextlib
import glob
import itertools
import os
import pathlib
import random
import shutil
import socket
import subprocess
import sys
import tempfile
import threading
import time

import psycopg2

READ = "SELECT elements FROM jeprun_lists WHERE key = %s"
APPEND = """INSERT INTO jeprun_lists VALUES (%s, %s)
    ON CONFLICT (key) DO UPDATE SET elements = jeprun_lists.elements || ' ' || EXCLUDED.elements"""
LEVELS = ["read committed", "repeatable read", "serializable"]


class Keys:
    """The keys that are in use. One that has had all of its appends makes room for a new one."""

    def __init__(self, count, appends):
        self.lock, self.appends = threading.Lock(), appends
        self.fresh = itertools.count(count)
        self.used = {key: 0 for key in range(count)}

    def draw(self, dice):
        with self.lock:
            return dice.choice(list(self.used))

    def element(self, key):
        """The next element of a key, or None where it has had all."""
        with self.lock:
            if key not in self.used:
                return None
            self.used[key] += 1
            element = self.used[key]
            if element == self.appends:
                del self.used[key]
                self.used[next(self.fresh)] = 0
            return element


class History:
    """The operations of a run, each a line, in the order in which they happened."""

    def __init__(self):
        self.lock, self.lines, self.begun = threading.Lock(), [], time.monotonic_ns()

    def add(self, kind, process, ops):
        value = " ".join(written(op) for op in ops)
        with self.lock:
            self.lines.append(
                f"{{:index {len(self.lines)}, :time {time.monotonic_ns() - self.begun}, :type :{kind}, :process {process}, "
                f":f :txn, :value [{value}]}}"
            )


def written(op):
    """A micro-operation as EDN: ("append", key, element), or ("r", key, what was read)."""
    function, key, third = op
    if function == "r":
        third = "nil" if third is None else "[" + " ".join(map(str, third)) + "]"
    return f"[:{function} {key} {third}]"


def draw_ops(dice, keys, most):
    """The micro-operations of a transaction, with elements that were not used before."""
    ops = []
    for _ in range(dice.randint(1, most)):
        key = keys.draw(dice)
        element = keys.element(key) if dice.random() < 0.5 else None
        ops.append(("r", key, None) if element is None else ("append", key, element))
    return ops


def perform(connection, ops, dice, rest):
    """Does a transaction, and gives its micro-operations with what was read."""
    done = []
    with connection.cursor() as cursor:
        for function, key, third in ops:
            time.sleep(dice.random() * rest)
            if function == "append":
                cursor.execute(APPEND, (key, str(third)))
            else:
                cursor.execute(READ, (key,))
                row = cursor.fetchone()
                third = [] if row is None else [int(element) for element in row[0].split()]
            done.append((function, key, third))
        connection.commit()
    return done


def connect(dsn, isolation):
    connection = psycopg2.connect(dsn)
    connection.set_session(isolation_level=isolation)
    return connection


def run_client(thread, given, dsn, keys, history, turns):
    dice, process, connection = random.Random(f"{given.seed}-{thread}"), thread, connect(dsn, given.isolation)
    while next(turns) < given.transactions:
        ops = draw_ops(dice, keys, 4)
        history.add("invoke", process, ops)
        try:
            history.add("ok", process, perform(connection, ops, dice, given.rest / 1000))
        except (psycopg2.OperationalError, psycopg2.InterfaceError) as error:
            if isinstance(error, psycopg2.extensions.TransactionRollbackError) and not connection.closed:
                connection.rollback()
                history.add("fail", process, ops)
                continue
            history.add("info", process, ops)
            process, connection = process + given.threads, connect(dsn, given.isolation)
    connection.close()


def free_port():
    with socket.socket() as taken:
        taken.bind(("127.0.0.1", 0))
        return taken.getsockname()[1]


@contextlib.contextmanager
def own_server():
    """A server in a temporary folder: how to connect to it."""
    programs = sorted(glob.glob("/usr/lib/postgresql/*/bin")) or [str(pathlib.Path(shutil.which("initdb") or "").parent)]
    folder, port = tempfile.mkdtemp(prefix="jeprun-postgresql-"), free_port()
    user = {"user": "postgres"} if os.geteuid() == 0 else {}
    if user:
        shutil.chown(folder, "postgres")

    def call(program, *words):
        subprocess.run([f"{programs[-1]}/{program}", "-D", f"{folder}/data", *words], check=True, cwd=folder, stdout=subprocess.DEVNULL, **user)

    call("initdb", "-A", "trust", "-U", "postgres")
    call("pg_ctl", "-w", "-l", f"{folder}/log", "-o", f"-p {port} -k {folder} -c listen_addresses=127.0.0.1", "start")
    try:
        yield f"host=127.0.0.1 port={port} user=postgres dbname=postgres"
    finally:
        call("pg_ctl", "-m", "immediate", "stop")
        shutil.rmtree(folder)


def record(given, dsn):
    with contextlib.closing(connect(dsn, "serializable")) as connection, connection.cursor() as cursor:
        cursor.execute("DROP TABLE IF EXISTS jeprun_lists")
        cursor.execute("CREATE TABLE jeprun_lists (key int PRIMARY KEY, elements text NOT NULL)")
        connection.commit()
    keys, history, turns = Keys(given.keys, given.appends), History(), itertools.count()
    clients = [
        threading.Thread(target=run_client, args=(thread, given, dsn, keys, history, turns)) for thread in range(given.threads)
    ]
    for client in clients:
        client.start()
    for client in clients:
        client.join()
    return history.lines


def main():
    parser = argparse.ArgumentParser(description="Records a history of transactions of a real PostgreSQL.")
    parser.add_argument("--isolation", choices=LEVELS, default="serializable", help="the isolation level of all transactions")
    parser.add_argument("--transactions", type=int, default=200, help="how many transactions, of all threads together")
    parser.add_argument("--threads", type=int, default=5, help="client threads")
    parser.add_argument("--keys", type=int, default=3, help="how many keys are in use at a time")
    parser.add_argument("--appends", type=int, default=8, help="how many appends a key has before another one takes its place")
    parser.add_argument("--rest", type=float, default=4, help="the longest rest before a micro-operation, in milliseconds")
    parser.add_argument("--seed", type=int, default=1, help="decides which transactions each thread does")
    parser.add_argument("--dsn", help="how to connect to a server that runs already, as libpq takes it")
    given = parser.parse_args()
    with contextlib.nullcontext(given.dsn) if given.dsn else own_server() as dsn:
        print("\n".join(record(given, dsn)))


if __name__ == "__main__":
    sys.exit(main())
