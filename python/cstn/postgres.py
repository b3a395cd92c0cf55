"""Journals in PostgreSQL: any worker on any machine takes any plan up. It needs `psycopg`, from 3.1 on."""
from __future__ import annotations

import hashlib
import select
import threading
from collections.abc import Iterator
from contextlib import contextmanager

import psycopg
from psycopg import Connection, sql

from cstn.errors import Busy, Moved, NotKept

TABLES = """
create table if not exists cstn_document(digest text primary key, bytes bytea not null);
create table if not exists cstn_entry(plan text not null, version bigint not null, entry text not null,
                                      primary key(plan, version));
"""
SECONDS = 20.0
"""How long a client waits for another one, and for the server."""


class PostgresStore:
    """The journals and documents of a database, in two tables, which are made where there are none.

    For any number of threads, processes and machines. An event is one transaction, under an advisory lock on its plan;
    who dies, or whose connection is lost, lets go of both. `conninfo` is what `psycopg.connect` takes.
    """

    def __init__(self, conninfo: str, *, seconds: float = SECONDS) -> None:
        self.conninfo, self.seconds = conninfo, seconds
        self.lock = threading.Lock()
        self.idle: list[Connection[tuple[object, ...]]] = []
        with self.connection() as connection, connection.transaction():
            connection.execute("select pg_advisory_xact_lock(%s)", (number_of("the tables of cstn"),))
            connection.execute(TABLES)

    @contextmanager
    def connection(self) -> Iterator[Connection[tuple[object, ...]]]:
        """A connection for one thread; one that fails is not used again."""
        with self.lock:
            found = self.idle.pop() if self.idle else None
        if found is not None and is_lost(found):
            found.close()
        if found is None or found.closed:
            found = self.connected()
        try:
            yield found
        except psycopg.Error as error:
            if isinstance(error, psycopg.OperationalError):
                found.close()
            raise
        finally:
            if not found.closed:
                with self.lock:
                    self.idle.append(found)

    def connected(self) -> Connection[tuple[object, ...]]:
        """A new connection."""
        found = psycopg.connect(self.conninfo, autocommit=True, connect_timeout=max(2, int(self.seconds)))
        for setting, seconds in (("lock_timeout", self.seconds), ("statement_timeout", 2 * self.seconds)):
            found.execute(sql.SQL("set {} = {}").format(sql.Identifier(setting), int(seconds * 1000)))
        found.execute("set synchronous_commit = on")
        return found

    def journal(self, plan: str) -> PostgresJournal:
        return PostgresJournal(self, plan)

    def plans(self) -> list[str]:
        with self.connection() as connection:
            return [str(name) for name, in connection.execute("select distinct plan from cstn_entry order by plan")]

    def keep_document(self, document: bytes) -> str:
        digest = hashlib.sha256(document).hexdigest()
        with self.connection() as connection:
            keep(connection, digest, document)
        return digest

    def document(self, digest: str) -> bytes:
        with self.connection() as connection:
            row = connection.execute("select bytes from cstn_document where digest = %s", (digest,)).fetchone()
        if row is None or not isinstance(row[0], bytes):
            raise KeyError(digest)
        return row[0]

    def close(self) -> None:
        with self.lock:
            idle, self.idle = self.idle, []
        for connection in idle:
            connection.close()


class PostgresJournal:
    """The journal of one plan in a database. What is kept while it is held is durable when that ends."""

    def __init__(self, store: PostgresStore, plan: str) -> None:
        self.store, self.plan = store, plan
        self.holding: Connection[tuple[object, ...]] | None = None

    @contextmanager
    def connection(self) -> Iterator[Connection[tuple[object, ...]]]:
        if self.holding is not None:
            yield self.holding
        else:
            with self.store.connection() as connection:
                yield connection

    def read(self, after: int = 0) -> list[tuple[int, str]]:
        with self.connection() as connection:
            rows = connection.execute("select version, entry from cstn_entry where plan = %s and version > %s"
                                      " order by version", (self.plan, after)).fetchall()
        return [(int(str(version)), str(entry)) for version, entry in rows]

    def append(self, version: int, entry: str) -> None:
        try:
            with self.connection() as connection:
                connection.execute("insert into cstn_entry values(%s, %s, %s)", (self.plan, version, entry))
        except psycopg.errors.UniqueViolation as error:
            raise Moved(version) from error

    def keep_document(self, document: bytes) -> str:
        digest = hashlib.sha256(document).hexdigest()
        with self.connection() as connection:
            keep(connection, digest, document)
        return digest

    @contextmanager
    def held(self) -> Iterator[None]:
        """Holds the plan against all other workers, in one transaction. Raises `Busy`, `NotKept`."""
        if self.holding is not None:
            yield
            return
        try:
            with self.store.connection() as connection, connection.transaction():
                connection.execute("select pg_advisory_xact_lock(%s)", (number_of(self.plan),))
                self.holding = connection
                try:
                    yield
                finally:
                    self.holding = None
        except psycopg.errors.LockNotAvailable as error:
            raise Busy(f"another worker holds {self.plan!r}") from error
        except psycopg.Error as error:
            raise NotKept(f"the database could not take it: {error}") from error


def keep(connection: Connection[tuple[object, ...]], digest: str, document: bytes) -> None:
    connection.execute("insert into cstn_document values(%s, %s) on conflict do nothing", (digest, document))


def is_lost(connection: Connection[tuple[object, ...]]) -> bool:
    """Whether the server has ended an idle connection: it says something on it."""
    return bool(select.select([connection.fileno()], [], [], 0)[0]) if not connection.closed else True


def number_of(name: str) -> int:
    """The number of an advisory lock."""
    return int.from_bytes(hashlib.sha256(name.encode()).digest()[:8], "big", signed=True)
