"""A client in a process of its own, which is killed, by itself at a commit or from outside.

    python3 -m tests.worker KIND WHERE PLAN [POINT NUMBER]     with its events as JSON on standard input

KIND is `sqlite` or `postgres`, and WHERE a path or what `connect` takes. At the append of the number the process kills
itself: POINT is `before` it, `in` its transaction, or `after` it. Each event that was answered is written as a line.
"""
from __future__ import annotations

import json
import os
import signal
import sys

from cstn import Follower, Refused, SqliteJournal, SqliteStore
from cstn.events import from_data
from cstn.journal import Journal, Store
from tests.support import CLINIC, PLANS


def die() -> None:
    os.kill(os.getpid(), signal.SIGKILL)


class Dying(SqliteJournal):
    """A journal whose client dies at one of its appends."""

    point, left = "", 0

    def append(self, version: int, entry: str) -> None:
        self.left -= 1
        if self.left == 0 and self.point == "before":
            die()
        if self.left == 0 and self.point == "in":
            self.store.connection.execute("begin immediate")
            super().append(version, entry)
            die()
        super().append(version, entry)
        if self.left == 0 and self.point == "after":
            die()


def opened(kind: str, where: str) -> Store:
    if kind == "sqlite":
        return SqliteStore(where)
    from cstn.postgres import PostgresStore
    return PostgresStore(where)


def main(kind: str, where: str, plan: str, point: str = "", number: str = "0") -> None:
    store = opened(kind, where)
    journal: Journal = store.journal(plan)
    if point and isinstance(store, SqliteStore):
        journal = Dying(store, plan)
        journal.point, journal.left = point, int(number)
    document = PLANS[int(plan.rpartition("-")[2])] if "-" in plan else CLINIC
    with Follower(document, journal) as follower:
        for data in json.loads(sys.stdin.read()):
            try:
                follower.tell(from_data(data))
                print(data["key"], flush=True)
            except Refused as error:
                print(f"refused {error.code}", flush=True)


if __name__ == "__main__":
    main(*sys.argv[1:])
