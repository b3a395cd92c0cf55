"""Many plans of one store, with as many processes as one allows."""
from __future__ import annotations

import logging
import threading
from collections import OrderedDict
from collections.abc import Iterable

from cstn import program as programs
from cstn.answers import Next, Verdict
from cstn.clock import Clock
from cstn.errors import CstnError, Moved, NoProgram, NotKept, WrongType
from cstn.follower import MOST_GROWN, Follower
from cstn.journal import Head, Store, holding, parsed
from cstn.plan import Plan

LOG = logging.getLogger("cstn")


class Host:
    """The plans of a store. A plan's process stays while it is among the `processes` that were used last.

    For several threads: calls on one plan queue, calls on others don't wait. What the followers take, `cap`,
    `most_cap`, `seconds` and `ahead`, is said once for all.
    """

    def __init__(self, store: Store, *, processes: int = 64, cap: int = programs.CAP, most_cap: int = MOST_GROWN,
                 seconds: float = programs.SECONDS, ahead: int | None = 1, program: str | None = None) -> None:
        self.store, self.processes, self.program = store, processes, program
        self.cap, self.most_cap, self.seconds, self.ahead = cap, most_cap, seconds, ahead
        self.lock = threading.Lock()
        self.followers: OrderedDict[str, Follower] = OrderedDict()
        self.documents: dict[tuple[str, int | None], Plan] = {}

    def plans(self) -> list[str]:
        """The names of the plans, in order."""
        return self.store.plans()

    def create(self, name: str, plan: Plan, clock: Clock | None = None) -> Follower:
        """Begins a plan under a name. Raises `Moved` where the name has a journal already, `NotKept`, `WrongType`."""
        if not isinstance(name, str) or not isinstance(plan, Plan):
            raise WrongType(f"a Plan is begun under a name, and not {plan!r} under {name!r}")
        journal, head = self.store.journal(name), Head.of(plan, clock)
        try:
            self.store.keep_document(plan.document)
            with holding(journal):
                journal.append(1, head.text())
        except Moved as error:
            raise Moved(error.version, f"the plan {name!r} was begun already") from error
        except CstnError:
            raise
        except Exception as error:
            raise NotKept(f"the journal cannot take it: {error}") from error
        return self.follower(name)

    def follower(self, name: str) -> Follower:
        """The plan of a name, taken up from its journal and the store's document. Raises `KeyError`."""
        with self.lock:
            found = self.followers.get(name)
        if found is None:
            found = self.taken_up(name)
        with self.lock:
            found = self.followers.setdefault(name, found)
            self.followers.move_to_end(name)
            idle = list(self.followers.values())[:-max(1, self.processes)]
        for other in idle:
            release_if_idle(other)
        return found

    def taken_up(self, name: str) -> Follower:
        """A follower over the journal of a name."""
        journal = self.store.journal(name)
        first = next(iter(journal.read(0)), None)
        if first is None:
            raise KeyError(name)
        head = parsed(*first)
        if not isinstance(head, Head):
            raise KeyError(name)
        return Follower(self.plan_of(head), journal, clock=head.clock, cap=self.cap, most_cap=self.most_cap,
                        seconds=self.seconds, ahead=self.ahead)

    def plan_of(self, head: Head) -> Plan:
        """The plan to which a journal belongs; those of one document are read once."""
        key = head.document, head.deadline
        if key not in self.documents:
            self.documents[key] = Plan.read(self.store.document(head.document), deadline=head.deadline,
                                            program=self.program)
        return self.documents[key]

    def due(self, at: int | None = None, *, of: Iterable[str] | None = None) -> list[tuple[str, Next | Verdict]]:
        """The plans with something to do, or an outcome to await, by now: by each plan's clock, or at a tick; and those
        that stand at "no", or of which the verdict is unknown, with that verdict. With `of` those plans alone.

        Plans without a clock are asked only at a tick. Where one cannot be asked now it is passed over, with a warning
        in the log `cstn`. Raises `NoProgram`, and `KeyError` where a plan of `of` is unknown.
        """
        found = list[tuple[str, Next | Verdict]]()
        for name in self.plans() if of is None else of:
            try:
                follower = self.follower(name)
                now = follower.clock.now() if at is None and follower.clock is not None else at
                following = follower.next() if now is not None else None
            except NoProgram:
                raise
            except CstnError as error:
                LOG.warning("the plan %r was passed over: %r", name, error)
                continue
            is_due = isinstance(following, Next) and now is not None and following.at <= now
            if isinstance(following, Next | Verdict) and (is_due or isinstance(following, Verdict)):
                found.append((name, following))
        return found

    def close(self) -> None:
        """Lets all processes go."""
        with self.lock:
            followers, self.followers = list(self.followers.values()), OrderedDict()
        for follower in followers:
            follower.close()


def release_if_idle(follower: Follower) -> None:
    """Lets a follower's process go, unless somebody asks it just now."""
    if follower.session is not None and follower.lock.acquire(blocking=False):
        try:
            follower.release()
        finally:
            follower.lock.release()
