"""A process that was told a journal, with what is known by it."""
from __future__ import annotations

from collections.abc import Iterable, Sequence
from dataclasses import dataclass, replace
from enum import Enum

from cstn import program as programs
from cstn.answers import Answer, Can, Next, Refusal, Verdict, is_taken
from cstn.child import Child
from cstn.clock import Clock
from cstn.errors import Changed, Contradicts, NotYet, Refused, WaitsFor
from cstn.events import Add, Did, Event, Forgive, NotBefore, Now, Saw, line_of, with_key
from cstn.journal import Forgotten, Told
from cstn.order import levels
from cstn.plan import Plan
from cstn.refusals import unsayable, why
from cstn.state import State


class Standing(Enum):
    """What became of an event."""

    TAKEN = "taken"
    KNOWN = "known"
    WAITS = "waits"
    FELL = "fell"


@dataclass
class Telling:
    """An event that was told: what became of it, what the program answered, and when it was written down."""

    event: Event
    standing: Standing
    answer: str
    when: str = ""
    waits_for: WaitsFor = WaitsFor()
    why: str = ""


@dataclass(frozen=True)
class Marked:
    """What was known where a mark was set."""

    state: State
    verdict: Verdict | None
    tellings: dict[str, Telling]
    covers: int
    cap: int


@dataclass(frozen=True)
class Limits:
    """What a process may take: bounds of a check, and seconds for an answer."""

    cap: int = programs.CAP
    seconds: float = programs.SECONDS


class Session:
    """A child of a plan, and the tellings of its journal in order, by their keys. Not for several threads at once."""

    def __init__(self, plan: Plan, limits: Limits, entries: Sequence[Told | Forgotten] = (),
                 clock: Clock | None = None) -> None:
        self.plan, self.state = plan, State.of(plan, clock)
        self.child = Child(plan.document, plan.asked_deadline, cap=limits.cap, seconds=limits.seconds,
                           program=plan.program)
        self.verdict: Verdict | None = self.child.first
        self.tellings: dict[str, Telling] = {}
        self.covers = len(entries)
        self.marks: list[Marked] = []
        try:
            self.tell_anew(entries)
        except BaseException:
            self.close()
            raise

    def tell_anew(self, entries: Sequence[Told | Forgotten]) -> None:
        """Tells the entries of a journal, corrected. What is refused where another fact stood then falls."""
        mended = any(isinstance(entry, Forgotten) for entry in entries)
        for entry in without_old_times(corrected(entries)):
            telling = self.add(entry.event, entry.when)
            was_taken = not entry.answer.startswith("refused ")
            is_other = is_of_ids(entry.event, mended) and telling.answer != entry.answer
            if was_taken and (telling.standing is Standing.FELL and not mended or is_other):
                raise Changed(f"{line_of(entry.event)} is answered {telling.answer}, and was answered {entry.answer}")

    def add(self, event: Event, when: str = "") -> Telling:
        """Tells an event of the journal, whatever becomes of it, and then what waited for it."""
        try:
            telling = self.tell(event)
        except NotYet as error:
            telling = Telling(event, Standing.WAITS, f"refused {error.code}", waits_for=error.waits_for, why=error.says)
        except Refused as error:
            telling = Telling(event, Standing.FELL, f"refused {error.code}", why=error.says)
        self.keep(telling, when)
        return telling

    def keep(self, telling: Telling, when: str) -> None:
        """Writes down a telling, and tells again what waits if it was taken."""
        telling.when = when
        self.tellings[str(telling.event.key)] = telling
        if telling.standing is Standing.TAKEN:
            self.settle()

    def tell(self, event: Event) -> Telling:
        """Tells an event, and writes nothing down but what the program has taken. Raises `Refused`."""
        line = line_of(event)
        text, answer = self.said(event, line)
        if isinstance(answer, Refusal):
            return Telling(event, Standing.KNOWN, text)
        assert is_taken(answer)
        self.state.take(event, line, answer)
        self.verdict = answer if isinstance(answer, Verdict) else None
        return Telling(event, Standing.TAKEN, text)

    def said(self, event: Event, line: str) -> tuple[str, Answer]:
        """The answer to a line that says an event, a refusal where it was told before. Raises `Refused`."""
        try:
            text, answer = self.child.ask_text(line)
        except ValueError as error:
            raise Refused("line", unsayable(event, self.state)) from error
        if isinstance(answer, Refusal):
            refused = why(answer, event, self.state)
            if isinstance(refused, Contradicts):
                refused.with_key = self.recorded_by(event, refused.code)
            if refused is not None:
                raise refused
        return text, answer

    def attempt(self, event: Event, now: int | None = None) -> Verdict:
        """What the verdict would be if an event were told, at a moment that it may be by then. Nothing is told. Raises
        `Refused`."""
        if now is None or now <= self.state.now:
            answer = self.said(event, f"try {line_of(event)}")[1]
            return answer if isinstance(answer, Verdict) else self.now_verdict()
        if not self.child.mark():
            raise Refused("M1", "too many marks are set")
        passed = self.child.ask(f"now {now}")
        try:
            answer = self.said(event, f"try {line_of(event)}")[1]
        except Refused:
            self.child.back()
            raise
        self.child.back()
        return next(it for it in (answer, passed, Verdict(Can.UNKNOWN)) if isinstance(it, Verdict))

    def mark(self) -> bool:
        """Sets a mark, to which `back` leads back; not where eight are set."""
        if not self.child.mark():
            return False
        tellings = {key: replace(it) for key, it in self.tellings.items()}
        self.marks.append(Marked(self.state.copy(), self.verdict, tellings, self.covers, self.child.cap))
        return True

    def back(self) -> None:
        """Leads back to where the last mark was set, which is gone then."""
        self.child.back()
        marked = self.marks.pop()
        self.state, self.verdict = marked.state, marked.verdict
        self.tellings, self.covers = marked.tellings, marked.covers
        self.child.limit(marked.cap)

    def use_cap(self, cap: int) -> None:
        """Goes on with another cap."""
        self.verdict = self.child.use_cap(cap)

    def recorded_by(self, event: Event, code: str) -> str | None:
        """The key of the event that told what a refused one contradicts, if one did."""
        step, letter = None, None
        match code, event:
            case "F4", Did(name) | NotBefore(name):
                step = name
            case "F7", Saw(name):
                letter = name
            case "F2", Saw(name):
                step = self.plan.observers[name].name
        taken = (it.event for it in self.tellings.values() if it.standing is Standing.TAKEN)
        return next((it.key for it in taken if isinstance(it, Did) and it.step == step
                     or isinstance(it, Saw) and it.letter == letter), None)

    def settle(self) -> None:
        """Tells again what waits, until nothing more is taken."""
        waiting = [it for it in self.tellings.values() if it.standing is Standing.WAITS]
        moved = True
        while moved:
            moved = False
            for telling in [it for it in waiting if it.standing is Standing.WAITS]:
                try:
                    again = self.tell(telling.event)
                    telling.standing, telling.answer, telling.waits_for, telling.why = (
                        again.standing, again.answer, WaitsFor(), "")
                    moved = True
                except NotYet as error:
                    telling.waits_for, telling.why = error.waits_for, error.says
                except Refused as error:
                    telling.standing, telling.waits_for, telling.why = Standing.FELL, WaitsFor(), error.says

    def next(self) -> Answer:
        """What is next; steps that wait for others of the same moment stand behind these. A step may be named `wait`:
        where the letters behind that are not awaited, these are steps."""
        answer = self.child.ask("next")
        if isinstance(answer, Next) and answer.wait and not self.state.awaited().keys() >= set(answer.wait):
            answer = Next(answer.at, (*answer.do, "wait", "".join(answer.wait)))
        if isinstance(answer, Next) and len(answer.do) > 1:
            waits = ((it.source, it.target) for it in self.state.limits.values() if it.most <= 0)
            level = levels(answer.do, waits)
            return replace(answer, do=tuple(sorted(answer.do, key=level.__getitem__)))
        return answer

    def standings(self) -> dict[str, Standing]:
        """What became of each event so far, by their keys."""
        return {key: telling.standing for key, telling in self.tellings.items()}

    def history(self) -> tuple[Telling, ...]:
        """The tellings in order; of times in a row the last."""
        found: list[Telling] = []
        for telling in self.tellings.values():
            if found and is_older(found[-1].event, telling.event):
                found.pop()
            found.append(replace(telling))
        return tuple(found)

    def now_verdict(self) -> Verdict:
        """The verdict as it stands, which an edit leaves to be asked."""
        if self.verdict is None:
            self.verdict = self.child.verdict()
        return self.verdict

    def close(self) -> None:
        self.child.close()


def is_of_ids(event: Event, mended: bool) -> bool:
    """Whether the ids that an event was answered have to be the same when it is told anew: each later id would be
    another one after an `Add`; what is forgiven may be something else once a fact was corrected."""
    return isinstance(event, Add) or isinstance(event, Forgive) and not mended


def corrected(entries: Sequence[Told | Forgotten]) -> list[Told]:
    """The events of a journal in order, each as its last correction has it."""
    found: dict[str, Told] = {}
    for entry in entries:
        if isinstance(entry, Told):
            found[str(entry.event.key)] = entry
        elif entry.instead is None:
            found.pop(entry.forget, None)
        elif entry.forget in found:
            found[entry.forget] = replace(found[entry.forget], event=with_key(entry.instead, entry.forget))
    return list(found.values())


def without_old_times(entries: Iterable[Told]) -> list[Told]:
    """Without each time that the next entry is a later time of: the state behind both is the same."""
    found: list[Told] = []
    for entry in entries:
        if found and is_older(found[-1].event, entry.event):
            found.pop()
        found.append(entry)
    return found


def is_older(one: Event, other: Event) -> bool:
    return (isinstance(one, Now) and isinstance(other, Now) and isinstance(one.at, int) and isinstance(other.at, int)
            and one.at <= other.at)
