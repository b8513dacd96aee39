"""A bank in a PostgreSQL, at one of its isolation levels."""

import contextlib
import pathlib
import runpy
import time

import psycopg2
from psycopg2 import errors

from clients import Client, NotDone

ACCOUNTS, OPENING = range(5), 20
GIVE = "UPDATE jeprun_accounts SET balance = balance + %s WHERE account = %s"
READ = "SELECT balance FROM jeprun_accounts WHERE account = %s"
# The server of the histories of transactions serves here too.
OWN_SERVER = runpy.run_path(str(pathlib.Path(__file__).resolve().parent.parent / "postgresql/record.py"))["own_server"]


@contextlib.contextmanager
def new_server():
    """A server with the opened accounts: how to connect to it."""
    with OWN_SERVER() as dsn:
        with contextlib.closing(psycopg2.connect(dsn)) as connection, connection, connection.cursor() as cursor:
            cursor.execute("CREATE TABLE jeprun_accounts (account int PRIMARY KEY, balance int NOT NULL)")
            cursor.executemany("INSERT INTO jeprun_accounts VALUES (%s, %s)", [(account, OPENING) for account in ACCOUNTS])
        yield dsn


class Bank(Client):
    """Balances of five accounts, each a row. A transfer takes an amount from one and gives it to another, if the first has as
    much; a read asks for one account after another. Each is a transaction."""

    level = "serializable"

    def __init__(self, *words):
        super().__init__(*words)
        self.connection = None

    def draw(self):
        if self.dice.random() < 0.4:
            return "read", None
        source, target = self.dice.sample(ACCOUNTS, 2)
        return "transfer", {":from": source, ":to": target, ":amount": self.dice.randint(1, 10)}

    def connect(self):
        self.connection = psycopg2.connect(self.server)
        self.connection.set_session(isolation_level=self.level)

    def perform(self, f, value):
        try:
            if not self.connection:
                self.connect()
            with self.connection, self.connection.cursor() as cursor:
                return self.transfer(cursor, value) if f == "transfer" else self.read(cursor)
        except (errors.SerializationFailure, errors.DeadlockDetected) as refusal:
            raise NotDone("deadlock" if isinstance(refusal, errors.DeadlockDetected) else "serialization-failure") from refusal
        except psycopg2.Error as error:
            raise ConnectionError from error

    def balance(self, cursor, account):
        time.sleep(self.dice.uniform(0, 0.002))
        cursor.execute(READ, (account,))
        return cursor.fetchone()[0]

    def read(self, cursor):
        return {account: self.balance(cursor, account) for account in ACCOUNTS}

    def transfer(self, cursor, value):
        source, target, amount = value.values()
        if self.balance(cursor, source) < amount:
            raise NotDone("too-little")
        # Rows are locked in the order of their numbers, so that no two transfers wait for each other.
        for account, change in sorted([(source, -amount), (target, amount)]):
            cursor.execute(GIVE, (change, account))
        return value

    def finish(self):
        self.call("read", None)

    def close(self):
        if self.connection:
            self.connection.close()
        self.connection = None


class CommittedBank(Bank):
    level = "read committed"
