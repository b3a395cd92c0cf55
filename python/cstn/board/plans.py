"""The plans of a board: begun, found by what a page calls them, told, and looked at."""
from __future__ import annotations

import hashlib
import threading
import time
from collections.abc import Mapping
from dataclasses import dataclass
from datetime import datetime, timedelta
from typing import Any

from cstn.answers import Can
from cstn.clock import Clock
from cstn.errors import CstnError, Moved, NotYet, OutOfTime, Refused, Unavailable, WaitsFor
from cstn.events import Event, Now, with_key
from cstn.follower import Follower, Receipt
from cstn.host import Host
from cstn.journal import Store
from cstn.plan import Plan
from cstn.refusals import MOST

from cstn.board.news import News
from cstn.board.reading import Wrong, event_of, key_of
from cstn.board.screen import Data, brief, look, outcome, page, tried
from cstn.board.words import shown

MOST_PLANS = 200
MOST_TITLE = 80
LONGEST_ATTEMPT = 1.0
SHORT = 16
"""How many digits of a digest name a plan in an address."""


@dataclass(frozen=True)
class Timing:
    """How time passes: a tick of so many seconds by the wall clock, from `start` or from when a plan is begun; or by
    hand, and then the length of a tick and the start only say how moments are written."""

    tick: float | None = None
    start: datetime | None = None
    by_hand: bool = True

    def clock(self) -> Clock | None:
        """The clock of a plan that begins now: ticks of whole minutes begin with a minute, others with a second."""
        if self.tick is None:
            return None
        now = datetime.now().astimezone()
        begun = now.replace(second=now.second if self.tick % 60 else 0, microsecond=0)
        return Clock(self.start or begun, timedelta(seconds=self.tick))


@dataclass(frozen=True)
class Document:
    """A document of the command line."""

    title: str
    plan: Plan


def short(text: str) -> str:
    """What an address has in place of a name, which may be anything."""
    return hashlib.sha256(text.encode()).hexdigest()[:SHORT]


class Board:
    """Plans with their journals in a store. For several threads."""

    def __init__(self, store: Store, documents: Mapping[str, Document], timing: Timing, *,
                 program: str | None = None) -> None:
        self.documents, self.timing, self.news = documents, timing, News()
        self.host = Host(store, ahead=None if timing.by_hand else 1, program=program)
        self.lock = threading.Lock()
        self.looks: dict[str, tuple[object, Data]] = {}
        self.turns: dict[str, threading.Lock] = {}
        self.slow: dict[str, int] = {}
        """The version of each plan at which an attempt took long."""
        self.pending = {short(it.title): it.title for it in documents.values() if it.title not in self.host.plans()}
        if timing.by_hand or timing.start is not None:
            for title in list(self.pending.values()):
                self.begin(title, title)

    # ---- which plans there are ----

    def titles(self) -> dict[str, str]:
        """The titles of the plans, begun and not, by what addresses call them."""
        return {short(title): title for title in self.host.plans()} | self.pending

    def title(self, plan: str) -> str:
        title = self.titles().get(plan)
        if title is None:
            raise KeyError(plan)
        return title

    def follower(self, plan: str) -> Follower:
        """The plan, which was begun. Raises `KeyError`."""
        if plan in self.pending:
            raise Wrong("this plan was not begun")
        return self.host.follower(self.title(plan))

    def begin(self, document: str, title: str) -> str:
        """Begins a plan of a document under a title. Raises `Wrong`."""
        found = self.documents.get(document)
        if found is None:
            raise Wrong("no such document")
        if not title.strip() or len(title) > MOST_TITLE or not title.isprintable():
            raise Wrong(f"a title has 1 to {MOST_TITLE} letters")
        if len(self.titles()) >= MOST_PLANS + len(self.pending):
            raise Wrong(f"a board has at most {MOST_PLANS} plans")
        try:
            self.host.create(title, found.plan, self.timing.clock())
        except Moved as error:
            raise Wrong("there is a plan of this title") from error
        self.pending.pop(short(title), None)
        self.news.say("")
        return short(title)

    # ---- what is told ----

    def tell(self, plan: str, data: Mapping[str, Any]) -> Data:
        """Tells what a browser sent."""
        if data.get("kind") == "begin":
            return {"id": self.begin(self.title(plan), self.title(plan))}
        follower = self.follower(plan)
        event = event_of(data, follower.plan, follower.outlook(latest=False))
        receipt = follower.tell(with_key(event, key_of(data)))
        self.news.say(plan)
        return told(receipt)

    def correct(self, plan: str, data: Mapping[str, Any]) -> Data:
        """Puts another event in the place of one, or none. Raises `Moved` where the page showed an older history."""
        follower = self.follower(plan)
        instead = data.get("instead")
        if instead is not None and not isinstance(instead, dict):
            raise Wrong("no event stands in the place of this one")
        version, key = data.get("version"), data.get("of")
        if not isinstance(version, int) or not isinstance(key, str):
            raise Wrong("a correction says of which event and of which version of the plan")
        event = None if instead is None else event_of(instead, follower.plan, follower.outlook(latest=False))
        receipt = follower.correct(key, event, expect=version)
        self.news.say(plan)
        return told(receipt)

    def what_if(self, plan: str, data: Mapping[str, Any]) -> Data:
        """What would follow of an event. It is told to a trial, and to nobody else."""
        follower = self.follower(plan)
        now = self.now(follower)
        with follower.what_if() as trial:
            if now is not None:
                trial.tell(Now(now))
            outlook = trial.outlook(latest=False)
            receipt = trial.tell(event_of(data, follower.plan, outlook))
            after = trial.outlook(latest=False)
            blame = (tried(trial.blame) if after.verdict.can is Can.NO else None) or ()
        return told(receipt) | outcome(follower.plan, after, blame)

    def attempt(self, plan: str, data: Mapping[str, Any]) -> Data:
        """Whether it would still fit after an event: the verdict alone, or why the event cannot be told, or not yet.
        Nothing where that took long of the plan as it stands: it is asked while somebody writes."""
        follower = self.follower(plan)
        event = event_of(data, follower.plan, follower.outlook(latest=False))
        found: Data = {"verdict": None, "waits": [], "why": ""}
        if self.slow.get(plan) == follower.version:
            return found
        begun = time.monotonic()
        try:
            found["verdict"] = follower.attempt(event, now=self.now(follower)).can.value
        except NotYet as error:
            found["waits"] = waiting(error.waits_for)
        except Refused as error:
            found["why"] = shown(error.says)
        except (OutOfTime, Unavailable):
            pass
        if time.monotonic() - begun > LONGEST_ATTEMPT:
            self.slow[plan] = follower.version
        return found

    # ---- what is shown ----

    def now(self, follower: Follower) -> int | None:
        """The tick that it is by the wall clock, of those that a plan may have; None where time passes by hand."""
        if self.timing.by_hand or follower.clock is None:
            return None
        return min(max(0, follower.clock.now()), MOST)

    def clock(self, follower: Follower, now: int) -> Data:
        clock, running = follower.clock, self.now(follower) is not None
        start = None if clock is None else clock.origin.hour * 3600 + clock.origin.minute * 60 + clock.origin.second
        return {"now": now, "tick": None if clock is None else clock.tick.total_seconds(), "start": start,
                "origin": None if clock is None else 1000 * clock.origin.timestamp(), "running": running,
                "server": 1000 * time.time()}

    def looked(self, plan: str, chosen: Mapping[str, bool], *, whole: bool) -> Data:
        """A look at a plan: the last one, if nothing has been told and no tick has passed since."""
        follower = self.follower(plan)
        now = self.now(follower)
        follower.verdict()
        state = (follower.version, now, tuple(sorted(chosen.items())))
        place = f"{plan} {whole}"
        with self.lock:
            turn = self.turns.setdefault(place, threading.Lock())
        with turn:
            known = self.looks.get(place)
            if known is not None and known[0] == state:
                return known[1]
            it = look(follower, now, chosen, whole=whole)
            data = (page(it) if whole else brief(it)) | {"now": it.outlook.now}
            self.looks[place] = (state, data)
            return data

    def page(self, plan: str, chosen: Mapping[str, bool]) -> Data:
        """What the page of a plan shows."""
        head: Data = {"id": plan, "title": shown(self.title(plan)), "begun": plan not in self.pending}
        if plan in self.pending:
            return head | {"clock": unknown_clock()}
        data = self.looked(plan, chosen, whole=True)
        return head | data | {"clock": self.clock(self.follower(plan), data["now"])}

    def list(self) -> Data:
        """What the list of plans shows."""
        plans = []
        for plan, title in sorted(self.titles().items(), key=lambda it: it[1]):
            head: Data = {"id": plan, "title": shown(title), "begun": plan not in self.pending}
            if plan in self.pending:
                plans.append(head | {"clock": unknown_clock(), "late": []})
                continue
            plans.append(head | self.brief(plan))
        documents = [{"id": key, "title": shown(it.title)} for key, it in self.documents.items()]
        return {"plans": plans, "documents": documents}

    def brief(self, plan: str) -> Data:
        """What the list shows of a plan that was begun: where it cannot be asked, why."""
        try:
            data = self.looked(plan, {}, whole=False)
            return data | {"clock": self.clock(self.follower(plan), data["now"])}
        except CstnError as error:
            return {"clock": unknown_clock(), "late": [], "error": shown(str(error))}

    def journal(self, plan: str) -> str:
        """The lines that were taken, in an order in which `cstn follow` takes them."""
        return "".join(line + "\n" for line in self.follower(plan).lines())

    def close(self) -> None:
        self.news.stop()
        self.host.close()


def unknown_clock() -> Data:
    return {"now": 0, "tick": None, "start": None, "origin": None, "running": False, "server": 1000 * time.time()}


def told(receipt: Receipt) -> Data:
    return {"version": receipt.version, "again": receipt.again, "waits": waiting(receipt.waits_for),
            "fallen": len(receipt.fallen)}


def waiting(found: WaitsFor) -> list[str]:
    return [shown(it) for it in (*found.letters, *found.steps)]
