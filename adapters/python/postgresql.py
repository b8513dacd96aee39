"""Tests PostgreSQL: transactions over lists, at one of its isolation levels, on a server that is killed now and then.

    /usr/bin/python3 adapters/python/postgresql.py [--isolation LEVEL] [SETTINGS]

It needs root, and on Debian `apt-get install postgresql python3-psycopg2 iproute2 iptables`. LEVEL is `serializable`,
`repeatable-read` or `read-committed`. Settings are postgresql.toml beside this file, where no others are given: they
ask for strict serializability. That is what SERIALIZABLE keeps. REPEATABLE READ, which is snapshot isolation, has
write skew, and READ COMMITTED breaks more.
"""

import argparse
import contextlib
import pathlib
import sys

import psycopg2
from psycopg2 import errors

import jeprun
from clusters import Namespaces
from jeprun import Failed, Operation, Value

PORT = 5432
GAP = 0.05  # seconds that a client waits before a call, on average
READ = "select elements from lists where key = %s"
APPEND = """insert into lists as held values (%s, array[%s])
            on conflict (key) do update set elements = held.elements || excluded.elements"""


class Postgresql(Namespaces):
    """A server that runs as the user postgres, as it has to, from a fresh folder."""

    user = "postgres"

    def dsn(self, node: str) -> str:
        return f"host={self.address(node)} port={PORT} user=postgres dbname=postgres connect_timeout=2"

    def program(self, name: str) -> str:
        """The newest program of this name. Debian has a folder for each version, and none of them on the path."""
        return str(max(pathlib.Path("/usr/lib/postgresql").glob(f"*/bin/{name}"), key=lambda path: int(path.parts[-3])))

    def prepare(self, node: str) -> None:
        folder = f"{self.home(node)}/data"
        self.run(node, *self.as_user(), self.program("initdb"), "--auth=trust", "--username=postgres", folder)
        with open(f"{folder}/pg_hba.conf", "a", encoding="utf-8") as file:
            file.write(f"host all all {self.network}.0/24 trust\n")

    def command(self, node: str) -> list[str]:
        # Behind a kill the server first writes all its files to the disk, by default one after another.
        options = ["-c", "recovery_init_sync_method=syncfs", "-c", f"listen_addresses={self.address(node)}"]
        options += ["-c", "unix_socket_directories=", "-p", str(PORT)]
        return [self.program("postgres"), "-D", f"{self.home(node)}/data", *options]

    def is_up(self, node: str) -> bool:
        with contextlib.suppress(psycopg2.Error), contextlib.closing(psycopg2.connect(self.dsn(node))):
            return True
        return False

    def clock(self, node: str) -> float:
        try:
            with contextlib.closing(psycopg2.connect(self.dsn(node))) as connection, connection.cursor() as cursor:
                cursor.execute("select extract(epoch from clock_timestamp())::float8")
                return float(cursor.fetchall()[0][0])
        except psycopg2.Error as error:
            raise OSError(str(error)) from error

    def setup(self) -> None:
        super().setup()
        connection = psycopg2.connect(self.dsn(self.nodes[0]))
        with contextlib.closing(connection), connection, connection.cursor() as cursor:
            cursor.execute("create table lists (key bigint primary key, elements bigint[] not null)")


class PostgresqlClient(jeprun.Client):
    """Runs each transaction once. Whether one that was refused is tried again is for whoever called it."""

    def __init__(self, cluster: Postgresql, isolation: str) -> None:
        self.cluster, self.isolation = cluster, isolation

    def open(self, node: str) -> None:
        try:
            self.connection = psycopg2.connect(self.cluster.dsn(node))
            self.connection.set_session(isolation_level=self.isolation)
        except psycopg2.Error as error:
            raise Failed(described(error)) from error  # no transaction was begun

    def invoke(self, operation: Operation) -> Value:
        try:
            if self.connection.closed:
                self.open(operation.node)
            with self.connection.cursor() as cursor:
                done = [self.make(cursor, *micro) for micro in operation.value]
        except psycopg2.Error as error:
            # A transaction whose commit was never asked for does not happen.
            self.abandon()
            raise Failed(described(error)) from error
        try:
            self.connection.commit()
        except (errors.SerializationFailure, errors.DeadlockDetected) as error:
            self.abandon()
            raise Failed(described(error)) from error
        return done

    def make(self, cursor: "psycopg2.extensions.cursor", function: str, key: int, element: int | None) -> list[Value]:
        """One micro-operation, with what it read."""
        if function == "append":
            cursor.execute(APPEND, (key, element))
            return [function, key, element]
        cursor.execute(READ, (key,))
        held = cursor.fetchone()
        return [function, key, held[0] if held else None]

    def abandon(self) -> None:
        """Ends the transaction, and the connection where it is of no use any more."""
        try:
            self.connection.rollback()
        except psycopg2.Error:
            self.connection.close()

    def close(self) -> None:
        self.connection.close()


def described(error: psycopg2.Error) -> str:
    """The first line of an error, without the query that it stands beside."""
    return f"{type(error).__name__}: {str(error).partition(chr(10))[0]}"


def main() -> int:
    parser = argparse.ArgumentParser(description="Tests PostgreSQL, one server in a network namespace of this machine.")
    levels = {name: name.replace("-", " ") for name in ("serializable", "repeatable-read", "read-committed")}
    parser.add_argument("--isolation", choices=levels, default="serializable", help="of the transactions")
    parser.add_argument("settings", nargs="?", default=pathlib.Path(__file__).with_name("postgresql.toml"))
    given = parser.parse_args()
    cluster = Postgresql()
    name = f"postgresql-{given.isolation}"

    def client() -> PostgresqlClient:
        return PostgresqlClient(cluster, levels[given.isolation])

    return jeprun.run_test(given.settings, cluster, client, name=name, gap=GAP)


if __name__ == "__main__":
    sys.exit(main())
