"""A plan that is carried out: what happens is told, and what is next is answered.

The journal decides. An event counts once its entry is kept, and a process is but a memory of the journal: one that dies
or hangs is replaced, and another client on another machine sees the same plan.
"""
from __future__ import annotations

import threading
import time
from collections.abc import Callable, Iterable, Iterator
from contextlib import contextmanager, nullcontext
from dataclasses import dataclass, replace
from datetime import datetime, timezone
from typing import Self, TypeVar

from cstn import program as programs
from cstn import questions
from cstn.answers import Answer, Blame, Can, Digest, Done, Idle, Least, Next, Refusal, Until, Verdict, Wide
from cstn.child import Child
from cstn.clock import Clock
from cstn.errors import (Changed, Contradicts, Moved, NotKept, NotYet, OutOfRange, OutOfTime, Refused, TooMany,
                         Unavailable, Unknown, WaitsFor, WrongType)
from cstn.events import (Add, AddStep, Change, Did, Event, Forgive, Moment, NotBefore, Now, Saw, is_event, line_of,
                         with_key)
from cstn.journal import Forgotten, Head, Journal, KeepsDocuments, MemoryJournal, Told, holding, parsed
from cstn.names import printed
from cstn.outlook import Late, Outlook, WayOut, outlook
from cstn.plan import Plan
from cstn.refusals import no_limit, seen_before, unobserved
from cstn.session import Limits, Session, Standing, Telling
from cstn.state import State
from cstn.ways import Way, ways

Found = TypeVar("Found")
MOST_GROWN = 8 * programs.CAP
"""Up to which cap a follower grows by itself where a verdict is unknown."""
TRIES = 5
"""How often an event is told anew where other clients were first."""
SETS = 20
"""How many sets of blamed limits are let go, one after another, to see what is left without them."""
NO_EVENT = "an event is a Did, a Saw or another of cstn.Event, and not {!r}"
NO_KEY = "a key is a text that is not empty and does not begin with #: {!r}"


@dataclass(frozen=True)
class Receipt:
    """What became of an event that was told.

    - `again`: it was told before, and what is known has not changed (its key, if it is new, is kept);
    - `waits_for`: it came too soon, is kept, and is told again by itself when that has come;
    - `added`: the id of the limit that it added;
    - `forgiven`: the ids of the limits that it took out since they were broken;
    - `taken`: the keys of events that had waited for it;
    - `fallen`: the keys of events that it made impossible; of one that fell itself, its own.
    """

    key: str
    version: int
    verdict: Verdict
    again: bool = False
    waits_for: WaitsFor = WaitsFor()
    added: int | None = None
    forgiven: tuple[int, ...] = ()
    taken: tuple[str, ...] = ()
    fallen: tuple[str, ...] = ()


class Follower:
    """A plan with its journal. For several threads: calls queue.

    `seconds` is the time limit of each answer. `clock` turns datetimes into ticks (without one, that of the journal);
    with it, a fact that is more than `ahead` ticks in the future is refused (None: any is taken).

    For you to read are `plan`, `journal`, `clock` and `version` (how many entries the journal has). All other
    attributes, `asked`, `copied`, and what begins with `_` are the package's own, and may change.
    """

    def __init__(self, plan: Plan, journal: Journal, *, clock: Clock | None = None, cap: int = programs.CAP,
                 most_cap: int = MOST_GROWN, seconds: float = programs.SECONDS, ahead: int | None = 1) -> None:
        if not isinstance(plan, Plan):
            raise WrongType(f"what is followed is a Plan, and not {plan!r}: `Plan.load` reads one")
        self.plan, self.journal, self.clock, self.ahead = plan, journal, clock, ahead
        self.allowed, self.most_cap = Limits(cap, seconds), most_cap
        self.lock = threading.RLock()
        self.restarts = 0
        self.session: Session | None = None
        self.version = 0
        self.head: Head | None = None
        self.entries: list[Told | Forgotten] = []
        self.keys: dict[str, Told] = {}
        self.corrections: dict[str, Forgotten] = {}
        self.last: tuple[int, Next | Done | Verdict] | None = None
        """What was next at a version."""

    # ---- what happens ----

    def tell(self, event: Event, *, wait: bool = True, keep: bool = False, expect: int | None = None) -> Receipt:
        """Tells an event, and answers once its entry is kept.

        With `expect` raises `Moved` where the version is another one. What comes too soon is kept and waits, or with
        `wait=False` raises `NotYet`. What other facts exclude raises `Contradicts`, or with `keep=True` is kept as
        fallen: then it can be corrected, and comes back if what stands against it is. Raises `Refused` and its kinds,
        `NotKept`, `Busy`, `OutOfTime`, `Unavailable`.
        """
        for _ in range(TRIES):
            try:
                return self._tell_once(event, wait, keep, expect)
            except Moved as error:
                moved = error
                if expect is not None:
                    break
        raise moved

    def tell_all(self, events: Iterable[Event]) -> list[Receipt | Refused]:
        """Tells events one after another; what is refused stands in its place, and the others are told."""
        found: list[Receipt | Refused] = []
        for event in events:
            try:
                found.append(self.tell(event))
            except Refused as error:
                found.append(error)
        return found

    def did(self, step: str, at: Moment, key: str | None = None) -> Receipt:
        """A step was done."""
        return self.tell(Did(step, at, key))

    def saw(self, letter: str, value: bool, at: Moment, key: str | None = None) -> Receipt:
        """An outcome came."""
        return self.tell(Saw(letter, value, at, key))

    def now(self, at: Moment) -> Receipt:
        """It is this moment, and nothing else has happened."""
        return self.tell(Now(at))

    def not_before(self, step: str, at: Moment, key: str | None = None) -> Receipt:
        """A step cannot be done before a moment, as for a part that comes then."""
        return self.tell(NotBefore(step, at, key))

    def add_step(self, step: str, key: str | None = None) -> Receipt:
        """There is a further step, in every case, which nothing ties to the others yet."""
        return self.tell(AddStep(step, key))

    def forgive(self, key: str | None = None) -> Receipt:
        """What is broken is broken: each limit that what was done has broken is taken out. Which, `forgiven` says."""
        return self.tell(Forgive(key))

    def correct(self, key: str, instead: Event | None = None, *, expect: int | None = None,
                own_key: str | None = None) -> Receipt:
        """The event of a key was wrong: it is left out, or another one of its kind stands in its place. The journal is
        told anew.

        Facts that can't be after that are in `fallen`. An added limit is never left out, since later ids would be
        others: say `Change(id, None)`. With `own_key`, the correction's own key, one that is told twice counts once.
        """
        if instead is not None and not is_event(instead):
            raise WrongType(NO_EVENT.format(instead))
        with self._guarded():
            with self._turn(holds=True):
                if own_key is not None and self._was_corrected(own_key, key, instead):
                    return self._receipt(key, None)
                self._expects(expect)
                self._can_be_corrected(key, instead)
                placed = instead and with_key(self._placed(with_key(instead, None)), key)
                entry = Forgotten(key, placed, moment_of_writing(), own_key)
                before = self.asked(Session.standings)
                self._mend(entry)
            return self._receipt(key, before)

    def _was_corrected(self, own_key: str, key: str, instead: Event | None) -> bool:
        """Whether a correction was kept under its own key. Raises `Contradicts` where another one was."""
        if not is_key(own_key):
            raise Refused("key", NO_KEY.format(own_key))
        known = self.corrections.get(own_key)
        if known is None:
            return False
        again = instead and with_key(self._placed(with_key(instead, None)), key)
        if (known.forget, known.instead) != (key, again):
            raise Contradicts("key", f"another correction was told with the key {own_key!r}", with_key=own_key)
        return True

    def _can_be_corrected(self, key: str, instead: Event | None) -> None:
        if key not in self.keys:
            raise Unknown("key", f"no event has the key {key!r}", key)
        event = self.keys[key].event
        if isinstance(event, Add) or isinstance(instead, Add):
            raise Refused("key", "a limit that was added is taken out by Change(id, None), and one is added by Add")
        if isinstance(event, AddStep) or isinstance(instead, AddStep):
            raise Refused("key", "a step that was put in stays, and one is put in by AddStep")
        if instead is not None and type(instead) is not type(event):
            kinds = type(event).__name__, type(instead).__name__
            raise Refused("key", "a {} is corrected by another {}, and not by a {}: leave it out, and tell that".format(
                kinds[0], *kinds))

    def _mend(self, entry: Forgotten) -> None:
        """Tells the journal anew with a correction, and keeps that if what stands instead can be."""
        mended = Session(self.plan, self.allowed, [*self.entries, entry], self.clock)
        try:
            now = mended.tellings.get(entry.forget)
            if entry.instead is not None and now is not None and now.standing is Standing.FELL:
                raise Refused("key", now.why)
            self._append(entry)
        except BaseException:
            mended.close()
            raise
        self.release()
        self.session = mended

    # ---- what is asked ----

    def verdict(self) -> Verdict:
        """Whether what is left can be carried out."""
        with self._turn():
            return self._known_verdict()

    def next(self) -> Next | Done | Verdict:
        """What is next; the verdict after a "no", and where it is unknown."""
        with self._turn():
            return self._following()

    def by(self, step: str) -> int | None:
        """Until when a step can wait; None after a "no", and where the verdict is unknown. Up to 20 checks.

        Raises `Unknown`, `Contradicts` where it was done or is ruled out.
        """
        if not isinstance(step, str):
            raise WrongType(f"a step is named by a text, and not {step!r}")
        with self._turn():
            answer = self._known(by_line(step))
            state = self.asked(lambda session: session.state)
        if isinstance(answer, Refusal):
            if answer.code == "F3":
                raise Unknown("F3", f"no step is named {step}", step)
            says = f"{step} was done" if step in state.done else f"{step} cannot wait: {answer.code}"
            raise Contradicts(answer.code, says, state.done.get(step))
        return answer.at if isinstance(answer, Until) else None

    def outlook(self, *, latest: bool = True) -> Outlook:
        """All of it in one answer. With `latest` up to 21 checks for each step that is left, and for all of it."""
        with self._turn():
            following = self._following()
            verdict = following if isinstance(following, Verdict) else self._known_verdict()
            state = self.asked(lambda session: session.state)
            until, idle = dict[str, int](), None
            if latest and isinstance(following, Next):
                for step in state.left():
                    answer = self._known(by_line(step))
                    if isinstance(answer, Until):
                        until[step] = answer.at
                idle = self._known(lambda session: questions.until(session.child))
            session = self.asked(lambda session: session)
            at = idle.at if isinstance(idle, Idle) else None
            return outlook(self.version, session, verdict, following, until, at)

    def blame(self) -> tuple[int, ...] | None:
        """After a "no" the ids of limits that can't be met together, without any where the facts alone are to blame;
        None else. In a process of its own: a check for each limit on which the "no" stands."""
        with self.copied() as (child, _):
            answer = child.ask("blame")
        return answer.ids if isinstance(answer, Blame) else None

    def blamed_sets(self) -> tuple[tuple[int, ...], ...]:
        """After a "no" all that has to give way: the ids that are blamed, those that are blamed with all of these let
        go, and so on, until what is left can be carried out; of each set one at least. Nothing where the facts alone
        are to blame, so that no limit helps. In a process of its own: the checks of `blame` for each set.

        If no single number of `ways_out` would do, more than one set stands here.
        """
        found: list[tuple[int, ...]] = []
        with self.copied() as (child, _):
            while child.verdict().can is Can.NO:
                blamed = child.ask("blame")
                if not isinstance(blamed, Blame) or not blamed.ids or len(found) == SETS:
                    return ()
                found.append(blamed.ids)
                for number in blamed.ids:
                    child.ask(line_of(Change(number, None)))
        return tuple(found)

    def ways_out(self, *, seconds: float = 60.0) -> tuple[WayOut, ...]:
        """After a "no", for each blamed limit, the deadline and each outcome that is awaited later than now, the
        number that would do if all else stays. In a process of its own: up to 22 checks for each, beside `blame`.

        After `seconds` no further number is asked for; what was not asked for, or is not known at the cap, is not in
        the answer. If `would_do` is None of all, no single one does: `blamed_sets` says what has to give way together.
        """
        until, found = time.monotonic() + seconds, list[WayOut]()
        with self.copied() as (child, state):
            for way in questions.ways_out(child, state) if child.verdict().can is Can.NO else ():
                found.append(way)
                if time.monotonic() > until:
                    break
        return tuple(found)

    def give_way(self, limit: int) -> WayOut | None:
        """After a "no" the least number with which a limit would do if all else stays; nothing after a "yes". Up to 22
        checks. Raises `Unknown`, and `OutOfTime` where it is not known at the greatest cap."""
        with self._turn():
            answer = self._known(lambda session: questions.give_way(session.child, session.state, limit))
        if isinstance(answer, Refusal):
            raise no_limit(str(limit))
        return number_of(answer, WayOut, Can.YES)

    def least_deadline(self) -> int | None:
        """The least deadline by which what is left can be carried out, below the plan's or above it; None if none is.
        One check. Raises `OutOfTime` where it is not known at the greatest cap."""
        with self._turn():
            answer = self._known(lambda session: questions.least_deadline(session.child))
        found = number_of(answer, Least)
        return None if found is None else found.deadline

    def until(self) -> int | None:
        """Until when nothing at all may happen: 1,000,000 if nothing but outcomes is left. None after a "no", and if
        nothing is left. Up to 21 checks. Raises `OutOfTime` where it is not known at the greatest cap."""
        with self._turn():
            answer = self._known(lambda session: questions.until(session.child))
        found = number_of(answer, Idle, Can.NO)
        return None if found is None else found.at

    def latest(self) -> dict[str, int]:
        """Until when each step that is left can wait, one at a time; nothing after a "no", and where the verdict is
        unknown. One answer, of up to 20 checks for each: where that is more than its time allows, ask `by` of one."""
        with self._turn():
            found = self._known(lambda session: session.child.all_until())
        return found if isinstance(found, dict) else {}

    def late(self, letter: str) -> Late:
        """Until when an awaited outcome may be late. Up to 22 checks.

        After a "no" it is the moment that would still do. Raises `Refused` where the outcome is not awaited, and
        `OutOfTime` where it is not known at the greatest cap.
        """
        if not isinstance(letter, str):
            raise WrongType(f"an outcome is named by a letter, and not {letter!r}")
        with self._turn():
            answer = self._known(lambda session: questions.late(session.child, session.state, letter))
            state = self.asked(lambda session: session.state)
        if isinstance(answer, Refusal):
            raise seen_before(letter, state) if answer.code == "F7" else unobserved(letter, state)
        if isinstance(answer, Late):
            return answer
        raise not_known(answer)

    def attempt(self, event: Event, *, now: Moment | None = None) -> Verdict:
        """What the verdict would be if an event were told, at a moment `now` that it may be by then. Nothing is told or
        kept, no other process is started, and what waits for the event is left out: `what_if` has all of it.

        Raises what `tell` does, also `NotYet`.
        """
        with self._turn():
            event, moment = self._placed(event), None if now is None else self._tick(now)
            answer = self._known(lambda session: session.attempt(event, moment))
        assert isinstance(answer, Verdict)
        return answer

    def use_cap(self, cap: int) -> Verdict:
        """Goes on with another cap, 1 to 4,194,304, as if it had been begun with that. The journal does not have it."""
        if not 1 <= cap <= programs.MOST_CAP:
            raise OutOfRange("line", f"a cap is from 1 to {programs.MOST_CAP}, and not {cap}")
        with self._turn():
            self.allowed, self.most_cap = replace(self.allowed, cap=cap), max(cap, self.most_cap)
            self.last = None
            return self._known_verdict()

    def cases(self) -> tuple[Way, ...]:
        """How the plan goes on, by case, each step at its least moment; nothing after a "no". Raises `TooMany` where
        there are too many cases, and `OutOfTime` where the verdict is unknown at the greatest cap."""
        with self._turn():
            answer = self._known(lambda session: session.child.cases())
            done = self.asked(lambda session: set(session.state.done))
        if isinstance(answer, Wide):
            raise TooMany("wide", f"{answer.letters} outcomes make too many cases")
        found = number_of(answer, list, Can.NO)
        return () if found is None else tuple(it.without(done) for it in ways(iter(found), {}, {}))

    def digest(self) -> str:
        """The SHA-256 of the canonical document of the plan as edited: of `Plan.digest` at the start."""
        with self._turn():
            answer = self.asked(lambda session: session.child.ask("digest"))
        assert isinstance(answer, Digest)
        return answer.sha256

    def rest(self) -> bytes:
        """The document of what is left. It makes no check."""
        with self._turn():
            return self.asked(lambda session: session.child.rest())

    def lines(self) -> tuple[str, ...]:
        """The lines that were taken, in order: told to `follow` over the same document they bring the plan back."""
        with self._turn():
            return self.asked(lambda session: tuple(session.state.lines))

    def history(self) -> tuple[Telling, ...]:
        """What was told, in order, with corrections applied, and what became of it; of times in a row the last."""
        with self._turn():
            return self.asked(Session.history)

    def what_if(self) -> Trial:
        """A copy with a process of its own: `with follower.what_if() as trial: trial.did("Sample", 9)`. It keeps
        nothing."""
        with self._turn():
            texts = [entry.text() for entry in [self.head, *self.entries] if entry is not None]
            return Trial(self.plan, MemoryJournal(texts), clock=self.clock, cap=self.allowed.cap,
                         most_cap=self.most_cap, seconds=self.allowed.seconds)

    def release(self) -> None:
        """Lets the process go; the next call starts another one. What is known is in the journal."""
        with self.lock:
            if self.session is not None:
                self.session.close()
                self.session = None

    close = release

    def __enter__(self) -> Self:
        return self

    def __exit__(self, *_: object) -> None:
        self.close()

    # ---- the journal ----

    @contextmanager
    def _guarded(self) -> Iterator[None]:
        """One call at a time on the plan. Where anything goes wrong but a refusal, nothing in memory is relied on."""
        with self.lock:
            try:
                yield
            except Refused:
                raise
            except BaseException:
                self._start_over()
                raise

    @contextmanager
    def _turn(self, holds: bool = False) -> Iterator[None]:
        """One call with all entries read; one that writes holds the journal against other clients."""
        with self._guarded(), holding(self.journal) if holds else nullcontext():
            self._read_on()
            yield

    def _start_over(self) -> None:
        self.release()
        self.version, self.head, self.entries, self.last = 0, None, [], None
        self.keys, self.corrections = {}, {}

    def _read_on(self) -> None:
        """Reads what others have kept since. Raises `Changed` where the journal is of another plan."""
        try:
            found = list(self.journal.read(self.version))
        except Exception as error:
            raise NotKept(f"the journal cannot be read: {error}") from error
        for version, text in found:
            if version != self.version + 1:
                raise Changed(f"the journal has no entry {self.version + 1}")
            entry = parsed(version, text)
            if isinstance(entry, Head):
                self._begin_with(entry)
            elif self.head is None:
                raise Changed("the journal does not begin with what it belongs to")
            else:
                self._note(entry)
            self.version = version

    def _begin_with(self, head: Head) -> None:
        if head.plan != self.plan.digest:
            raise Changed("the journal is of another document or another deadline")
        if head.clock is not None and self.clock not in (None, head.clock):
            raise Changed(f"the journal is of another clock, whose tick 0 was at {head.origin}")
        self.head = head
        self.clock = self.clock or head.clock

    def _note(self, entry: Told | Forgotten) -> None:
        self.entries.append(entry)
        if isinstance(entry, Told):
            self.keys[str(entry.event.key)] = entry
        elif entry.key is not None:
            self.corrections[entry.key] = entry

    def _append(self, entry: Told | Forgotten) -> None:
        """Keeps an entry, and before the first one to what the journal belongs. Raises `Moved`, `NotKept`."""
        try:
            if self.head is None:
                head = Head.of(self.plan, self.clock)
                if isinstance(self.journal, KeepsDocuments):
                    self.journal.keep_document(self.plan.document)
                self.journal.append(1, head.text())
                self.head, self.version = head, 1
            self.journal.append(self.version + 1, entry.text())
        except Moved:
            raise
        except Exception as error:
            raise NotKept(f"the journal cannot take it: {error}") from error
        self.version += 1
        self._note(entry)

    # ---- the process ----

    def _caught_up(self) -> Session:
        """The process that was told all entries."""
        session = self.session
        if session is not None:
            new = self.entries[session.covers:]
            if not session.child.is_alive or any(isinstance(entry, Forgotten) for entry in new):
                self.release()
                session = None
        if session is None:
            session = self.session = Session(self.plan, self.allowed, self.entries, self.clock)
            return session
        if session.child.cap != self.allowed.cap:
            session.use_cap(self.allowed.cap)
        for entry in new:
            assert isinstance(entry, Told)
            session.add(entry.event, entry.when)
            session.covers += 1
        return session

    def asked(self, question: Callable[[Session], Found]) -> Found:
        """The package's own. What a process answers. One that is gone, or hangs, is replaced, once."""
        was_there = self.session is not None
        try:
            return question(self._caught_up())
        except (OutOfTime, Unavailable) as error:
            self.release()
            self.restarts += 1
            if not was_there and isinstance(error, OutOfTime):
                raise
        try:
            return question(self._caught_up())
        except (OutOfTime, Unavailable):
            self.release()
            raise

    def _known(self, question: Callable[[Session], Found]) -> Found:
        """What a process answers; where the cap leaves that unknown, with a larger cap, as long as time allows."""
        answer = self.asked(question)
        while isinstance(answer, Verdict) and answer.can is Can.UNKNOWN and self.allowed.cap < self.most_cap:
            before = self.allowed
            self.allowed = replace(before, cap=min(2 * before.cap, self.most_cap))
            try:
                answer = self.asked(question)
            except (OutOfTime, Unavailable):
                self.allowed, self.most_cap = before, before.cap
        return answer

    def _known_verdict(self) -> Verdict:
        return self._known(Session.now_verdict)

    def _following(self) -> Next | Done | Verdict:
        if self.last is not None and self.last[0] == self.version:
            return self.last[1]
        answer = self._known(Session.next)
        if not isinstance(answer, Next | Done | Verdict):
            raise Unavailable(f"next was answered {answer}")
        self.last = self.version, answer
        return answer

    @contextmanager
    def copied(self) -> Iterator[tuple[Child, State]]:
        """The package's own. A process that was told the same lines, and what is known; nobody else waits for it."""
        with self._turn():
            state = self.asked(lambda session: session.state.copy())
            allowed = self.allowed
        child = Child(self.plan.document, self.plan.asked_deadline, cap=allowed.cap, seconds=allowed.seconds,
                      program=self.plan.program)
        try:
            for line in state.lines:
                child.ask(line)
            yield child, state
        finally:
            child.close()

    # ---- an event ----

    def _expects(self, expect: int | None) -> None:
        if expect is not None and expect != self.version:
            raise Moved(self.version)

    def _tick(self, at: Moment) -> int:
        """A moment as a tick."""
        told = at
        if isinstance(at, datetime):
            if self.clock is None:
                raise WrongType("a moment of the wall clock needs a Clock")
            at = self.clock.tick_of(at)
        if at < 0:
            begun = "" if self.clock is None else f", {self.clock.origin}"
            raise OutOfRange("clock", f"{told} is before the plan's start{begun}")
        return at

    def _placed(self, event: Event) -> Event:
        """The event with its moment as a tick, and a key. Raises `OutOfRange` for what the clock excludes."""
        if not is_event(event):
            raise WrongType(NO_EVENT.format(event))
        if not isinstance(event, Add | AddStep | Change | Forgive):
            at = self._tick(event.at)
            if isinstance(event, Did | Saw | Now) and self.clock is not None and self.ahead is not None:
                if at > (now := self.clock.now()) + self.ahead:
                    shown = self.clock.time_of(now) if isinstance(event.at, datetime) else now
                    raise OutOfRange("clock", f"{event.at} is in the future: it is {shown}, or a clock is wrong")
            event = replace(event, at=at)
        if isinstance(event, Add) and not is_text(event.says):
            raise Refused("line", f"no sentence: {event.says!r}")
        if event.key is None:
            return with_key(event, f"#{max(self.version, 1) + 1}")
        if not is_key(event.key):
            raise Refused("key", NO_KEY.format(event.key))
        return event

    def _tell_once(self, event: Event, wait: bool, keep: bool, expect: int | None) -> Receipt:
        with self._guarded():
            with self._turn(holds=True):
                self._expects(expect)
                event = self._placed(event)
                key = str(event.key)
                before = self._told(key, event, wait, keep)
            return self._receipt(key, before)

    def _told(self, key: str, event: Event, wait: bool, keep: bool) -> dict[str, Standing] | None:
        """Tells an event and keeps it: what had become of each other event before, or nothing where it was told. Of one
        that was told under another key, its sender's key is kept."""
        if (known := self.keys.get(key)) is not None:
            if known.event != event:
                raise Contradicts("key", f"another event was told with the key {key!r}", with_key=key)
            return None
        telling = self.asked(lambda session: first_told(session, event, wait, keep))
        if telling.standing is Standing.KNOWN and not is_key(key):
            return None
        teller = self.session
        assert teller is not None
        before = teller.standings()
        entry = Told(event, telling.answer, moment_of_writing())
        self._append(entry)
        try:
            teller.keep(telling, entry.when)
            teller.covers += 1
        except (OutOfTime, Unavailable):
            self.release()
        return None if telling.standing is Standing.KNOWN else before

    def _receipt(self, key: str, before: dict[str, Standing] | None) -> Receipt:
        """What became of an event, and of those that had waited or held before it. A verdict that is not had in time is
        unknown: the event is kept."""
        try:
            verdict = self._known_verdict()
        except (OutOfTime, Unavailable):
            verdict = Verdict(Can.UNKNOWN)
        tellings = self.asked(lambda session: session.tellings)
        own = tellings.get(key)
        changed = dict[str, Standing]()
        if before is not None:
            changed = {other: it.standing for other, it in tellings.items()
                       if other != key and before.get(other) is not it.standing}
        if own is not None and own.standing is Standing.FELL:
            changed[key] = own.standing
        return Receipt(key, self.version, verdict, before is None, own.waits_for if own else WaitsFor(), added_by(own),
                       forgiven_by(own),
                       tuple(other for other, standing in changed.items() if standing is Standing.TAKEN),
                       tuple(other for other, standing in changed.items() if standing is Standing.FELL))


class Trial(Follower):
    """A copy of a plan for questions of "what if". It keeps nothing, and can be led back to where it stood."""

    def __init__(self, plan: Plan, journal: MemoryJournal, *, clock: Clock | None = None, cap: int = programs.CAP,
                 most_cap: int = MOST_GROWN, seconds: float = programs.SECONDS, ahead: int | None = None) -> None:
        super().__init__(plan, journal, clock=clock, cap=cap, most_cap=most_cap, seconds=seconds, ahead=ahead)
        self.memory = journal
        self.marks: list[int] = []
        """How many entries there were where marks were set."""

    def mark(self) -> int:
        """Sets a mark, to which `back` leads back. How many are set. Raises `TooMany` where there are eight."""
        with self._turn():
            if not self.asked(Session.mark):
                raise TooMany("M1", "eight marks are set")
            self.marks.append(self.version)
            return len(self.marks)

    def back(self) -> int:
        """Leads back to where the last mark was set, which is gone then. How many are left. Raises `Refused` where none
        is."""
        with self._turn():
            if not self.marks:
                raise Refused("M2", "no mark is set")
            session, count = self.session, len(self.marks)
            del self.memory.entries[self.marks.pop():]
            if session is not None and session.child.is_alive and len(session.marks) == count:
                session.back()
                self.session = None
            else:
                session = None
            self._start_over()
            self.session = session
            self._read_on()
            return len(self.marks)

    @contextmanager
    def copied(self) -> Iterator[tuple[Child, State]]:
        """Its own process, which is led back afterwards: nobody else waits for that."""
        with self._turn():
            if not self.asked(lambda session: session.child.mark()):
                with super().copied() as found:
                    yield found
                return
            session = self._caught_up()
            try:
                yield session.child, session.state.copy()
                session.child.back()
            except BaseException:
                self.release()
                raise


def first_told(session: Session, event: Event, wait: bool, keep: bool) -> Telling:
    """Tells an event; one that comes too soon waits, if it may, and one that is excluded falls, if it is kept."""
    try:
        return session.tell(event)
    except NotYet as error:
        if not wait:
            raise
        return Telling(event, Standing.WAITS, f"refused {error.code}", waits_for=error.waits_for, why=error.says)
    except Contradicts as error:
        if not keep:
            raise
        return Telling(event, Standing.FELL, f"refused {error.code}", why=error.says)


def by_line(step: str) -> Callable[[Session], Answer]:
    """The question until when a step can wait."""
    return lambda session: session.child.ask(f"by {printed(step)}")


def added_by(telling: Telling | None) -> int | None:
    """The id of the limit that an event added."""
    if telling is not None and isinstance(telling.event, Add) and telling.standing is Standing.TAKEN:
        return int(telling.answer.split(" ")[1])
    return None


def forgiven_by(telling: Telling | None) -> tuple[int, ...]:
    """The ids of the limits that an event forgave."""
    if telling is not None and isinstance(telling.event, Forgive) and telling.standing is Standing.TAKEN:
        return tuple(int(it) for it in telling.answer.split(" ")[1:])
    return ()


def number_of(answer: object, wanted: type[Found], *without: Can) -> Found | None:
    """An answer of a kind; nothing where all is done, and after a verdict of these, which has none. Raises
    `OutOfTime`."""
    if isinstance(answer, wanted):
        return answer
    if isinstance(answer, Verdict) and answer.can not in without:
        raise not_known(answer)
    return None


def not_known(verdict: Verdict) -> OutOfTime:
    """The error of a question whose checks took more bounds than they may."""
    return OutOfTime(f"not known within {verdict.bounds} bounds")


def is_key(value: str) -> bool:
    """Whether a key may be a sender's."""
    return bool(value) and not value.startswith("#") and is_text(value)


def is_text(value: str) -> bool:
    """Whether a text can be written: it has no half of a character."""
    return not any("\ud800" <= c <= "\udfff" for c in value)


def moment_of_writing() -> str:
    return datetime.now(timezone.utc).isoformat(timespec="seconds")
