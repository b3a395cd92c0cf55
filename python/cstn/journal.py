"""The journal of a plan: what was told, in order. All else is reckoned from it.

An entry is a line of JSON. The first has to what the journal belongs; each other one is an event that was told, or a
correction. Entries are only ever added, so a journal is what the user brings with two calls.
"""
from __future__ import annotations

import json
from collections.abc import Iterable, Iterator
from contextlib import AbstractContextManager, nullcontext
from dataclasses import dataclass
from datetime import datetime, timedelta
from typing import Any, Protocol, runtime_checkable
from zoneinfo import ZoneInfo, ZoneInfoNotFoundError

from cstn.clock import Clock
from cstn.errors import Changed, Moved
from cstn.events import Event, from_data, to_data
from cstn.plan import Plan
from cstn.program import FOLLOW


class Journal(Protocol):
    """A journal of one plan: a table, a file."""

    def read(self, after: int = 0) -> Iterable[tuple[int, str]]:
        """The entries behind a version, in order: their versions, which count from 1 without a gap, and their text."""

    def append(self, version: int, entry: str) -> None:
        """Keeps an entry, which has to be durable when this returns (or, within `held`, when that ends).

        Raises `Moved` where this version is there: another client was first. Whatever else it raises, nothing is kept.
        """


@runtime_checkable
class Holds(Protocol):
    """A journal that one client can hold, so that others wait. It need not: `append` tells who was first."""

    def held(self) -> AbstractContextManager[None]:
        """Holds the journal. Raises `Busy` where another client does for too long."""


@runtime_checkable
class KeepsDocuments(Protocol):
    """A journal that keeps the document to which it belongs, so that who has the journal alone takes the plan up."""

    def keep_document(self, document: bytes) -> str:
        """Keeps a document. Its SHA-256."""


class Store(Protocol):
    """The journals of many plans, with the documents that they are of."""

    def journal(self, plan: str) -> Journal:
        """The journal of a plan by its name. It is empty at first."""

    def plans(self) -> list[str]:
        """The names of the plans that have entries, in order."""

    def keep_document(self, document: bytes) -> str:
        """Keeps a document. Its SHA-256, by which it is found again."""

    def document(self, digest: str) -> bytes:
        """The document of a digest. Raises `KeyError`."""

    def close(self) -> None:
        """Lets go of files and connections."""


class MemoryJournal:
    """A journal that dies with its process: for trials and tests."""

    def __init__(self, entries: Iterable[str] = ()) -> None:
        self.entries = list(entries)

    def read(self, after: int = 0) -> Iterator[tuple[int, str]]:
        yield from enumerate(self.entries[after:], after + 1)

    def append(self, version: int, entry: str) -> None:
        if version != len(self.entries) + 1:
            raise Moved(version)
        self.entries.append(entry)


def holding(journal: Journal) -> AbstractContextManager[None]:
    """Holds a journal that can be held."""
    return journal.held() if isinstance(journal, Holds) else nullcontext()


@dataclass(frozen=True)
class Head:
    """To what a journal belongs. The cap is not in it, since it may grow."""

    plan: str
    document: str
    deadline: int | None = None
    origin: str | None = None
    tick: float | None = None
    zone: str | None = None
    """The name of the origin's time zone, if it has one."""

    @classmethod
    def of(cls, plan: Plan, clock: Clock | None) -> Head:
        if clock is None:
            return cls(plan.digest, plan.document_digest, plan.asked_deadline)
        return cls(plan.digest, plan.document_digest, plan.asked_deadline, clock.origin.isoformat(),
                   clock.tick.total_seconds(), getattr(clock.origin.tzinfo, "key", None))

    @property
    def clock(self) -> Clock | None:
        if self.origin is None or self.tick is None:
            return None
        return Clock(in_zone(datetime.fromisoformat(self.origin), self.zone), timedelta(seconds=self.tick))

    def text(self) -> str:
        return dumped({"head": {"lines": FOLLOW} | {k: v for k, v in vars(self).items() if v is not None}})


@dataclass(frozen=True)
class Told:
    """An entry: an event that was told, as it was answered then, and when by the clock of who wrote it."""

    event: Event
    answer: str
    when: str

    def text(self) -> str:
        return dumped({"tell": to_data(self.event), "answer": self.answer, "when": self.when})


@dataclass(frozen=True)
class Forgotten:
    """An entry: the event of a key was wrong, and is left out, or another one stands in its place. `key` is the
    correction's own, if its sender gave it one."""

    forget: str
    instead: Event | None
    when: str
    key: str | None = None

    def text(self) -> str:
        data = None if self.instead is None else to_data(self.instead)
        own = {} if self.key is None else {"key": self.key}
        return dumped({"forget": self.forget, "instead": data, "when": self.when, **own})


Entry = Head | Told | Forgotten


def in_zone(when: datetime, zone: str | None) -> datetime:
    """A moment as the clocks of a zone show it; as it is where this machine does not know the zone."""
    try:
        return when if zone is None else when.astimezone(ZoneInfo(zone))
    except (ZoneInfoNotFoundError, ValueError):
        return when


def dumped(data: dict[str, Any]) -> str:
    return json.dumps(data, ensure_ascii=False, separators=(",", ":"))


def parsed(version: int, text: str) -> Entry:
    """The entry that a text means. Raises `Changed` where it means none, or is of another version of lines."""
    try:
        data = json.loads(text)
        if (head := data.get("head")) is not None and head.pop("lines") == FOLLOW and version == 1:
            return Head(**head)
        if "tell" in data:
            return Told(from_data(data["tell"]), data["answer"], data["when"])
        if "forget" in data:
            instead = data["instead"]
            event = None if instead is None else from_data(instead)
            return Forgotten(data["forget"], event, data["when"], data.get("key"))
    except (ValueError, KeyError, TypeError, AttributeError) as error:
        raise Changed(f"entry {version} of the journal is none: {text[:200]!r}") from error
    raise Changed(f"entry {version} of the journal is none that this package reads: {text[:200]!r}")
