"""Journals in a sqlite file: written ahead, synced at each entry, one client of a plan at a time."""
from __future__ import annotations

import fcntl
import hashlib
import os
import sqlite3
import threading
import time
from collections.abc import Iterator
from contextlib import contextmanager, suppress
from pathlib import Path

from cstn.errors import Busy, Moved, NotKept

TABLES = """
create table if not exists document(digest text primary key, bytes blob not null) without rowid;
create table if not exists entry(plan text not null, version integer not null, entry text not null,
                                 primary key(plan, version)) without rowid;
"""
SECONDS = 20.0
"""How long a client waits for another one."""


class SqliteStore:
    """The journals and documents of a file, which is made where there is none. Locks stand in a folder beside it.

    For any number of threads and of processes on one machine; the folder has to be there, and is not to be one of a
    network. Raises `NotKept` where it cannot be opened, `Busy`.
    """

    def __init__(self, path: str | Path, *, seconds: float = SECONDS) -> None:
        self.path, self.seconds = str(path), seconds
        self.locks = self.path + ".locks"
        self.lock = threading.RLock()
        try:
            with suppress(FileExistsError):
                os.mkdir(self.locks)
            with locked(os.path.join(self.locks, "opening"), seconds, self.path):
                self.connection = self.opened()
        except (OSError, sqlite3.Error) as error:
            raise NotKept(f"{self.path} cannot be opened: {error}") from error

    def opened(self) -> sqlite3.Connection:
        """A connection, with the tables made. By one client at a time: sqlite does not wait while a file turns to writing
        ahead."""
        connection = sqlite3.connect(self.path, timeout=self.seconds, isolation_level=None, check_same_thread=False)
        try:
            for pragma in ("journal_mode=wal", "synchronous=full"):
                connection.execute("pragma " + pragma).fetchall()
            connection.executescript(TABLES)
        except BaseException:
            connection.close()
            raise
        return connection

    def journal(self, plan: str) -> SqliteJournal:
        return SqliteJournal(self, plan)

    def plans(self) -> list[str]:
        with self.lock:
            return [name for name, in self.connection.execute("select distinct plan from entry order by plan")]

    def keep_document(self, document: bytes) -> str:
        digest = hashlib.sha256(document).hexdigest()
        with self.lock:
            self.connection.execute("insert or ignore into document values(?, ?)", (digest, document))
        return digest

    def document(self, digest: str) -> bytes:
        with self.lock:
            row = self.connection.execute("select bytes from document where digest = ?", (digest,)).fetchone()
        if row is None:
            raise KeyError(digest)
        return bytes(row[0])

    def close(self) -> None:
        with self.lock:
            self.connection.close()


class SqliteJournal:
    """The journal of one plan in a sqlite file."""

    def __init__(self, store: SqliteStore, plan: str) -> None:
        self.store, self.plan = store, plan
        self.lock_path = os.path.join(store.locks, hashlib.sha256(plan.encode()).hexdigest())

    def read(self, after: int = 0) -> list[tuple[int, str]]:
        with self.store.lock:
            return self.store.connection.execute(
                "select version, entry from entry where plan = ? and version > ? order by version",
                (self.plan, after)).fetchall()

    def keep_document(self, document: bytes) -> str:
        return self.store.keep_document(document)

    def append(self, version: int, entry: str) -> None:
        try:
            with self.store.lock:
                self.store.connection.execute("insert into entry values(?, ?, ?)", (self.plan, version, entry))
        except sqlite3.IntegrityError as error:
            raise Moved(version) from error

    @contextmanager
    def held(self) -> Iterator[None]:
        """Holds the plan against other threads and processes. Raises `Busy` after the store's seconds, `NotKept`."""
        with locked(self.lock_path, self.store.seconds, repr(self.plan)):
            yield


@contextmanager
def locked(path: str, seconds: float, what: str) -> Iterator[None]:
    """Holds the lock of a file, which who dies lets go of. Raises `Busy`, `NotKept`."""
    try:
        file = open(path, "ab")
    except OSError as error:
        raise NotKept(f"the lock cannot be had: {error}") from error
    with file:
        until = time.monotonic() + seconds
        while not is_locked(file.fileno()):
            if time.monotonic() > until:
                raise Busy(f"another client holds {what}")
            time.sleep(0.005)
        yield


def is_locked(file: int) -> bool:
    """Whether this client has the lock now."""
    try:
        fcntl.flock(file, fcntl.LOCK_EX | fcntl.LOCK_NB)
        return True
    except BlockingIOError:
        return False
