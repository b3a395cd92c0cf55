"""All that a screen of one plan shows, of one state."""
from __future__ import annotations

from collections.abc import Mapping
from dataclasses import dataclass

from cstn.answers import Done, Next, Verdict
from cstn.errors import WaitsFor
from cstn.events import Event
from cstn.plan import Limit
from cstn.session import Session, Standing
from cstn.state import Seen


@dataclass(frozen=True)
class Awaited:
    """An outcome that is awaited: of which observer, done when, and when it is expected."""

    letter: str
    observer: str
    since: int
    expected: int


@dataclass(frozen=True)
class Waiting:
    """An event that came too soon, and for what it waits."""

    event: Event
    waits_for: WaitsFor


@dataclass(frozen=True)
class Fallen:
    """An event that a later one, or a correction, made impossible, and why: a person has to look at it."""

    event: Event
    why: str


@dataclass(frozen=True)
class Outlook:
    """What was told, and what is next. Moments are ticks."""

    version: int
    now: int
    verdict: Verdict
    next: Next | Done | None
    """None after a "no", and where the verdict is unknown."""
    latest: Mapping[str, int]
    """Until when each step that is left can wait, one at a time: these moments do not hold together."""
    until: int | None
    """Until when nothing at all may happen: 1,000,000 if nothing but outcomes is left. None after a "no", if nothing is
    left, and where it was not asked or is not known."""
    awaited: tuple[Awaited, ...]
    done: Mapping[str, int]
    seen: Mapping[str, Seen]
    left_out: tuple[str, ...]
    ready: Mapping[str, int]
    """Steps that are not done, each with the moment before which it cannot be."""
    further: tuple[str, ...]
    """The steps that were put in."""
    waiting: tuple[Waiting, ...]
    fallen: tuple[Fallen, ...]
    limits: Mapping[int, Limit]
    """As edited, by their ids."""
    deadline: int


@dataclass(frozen=True)
class WayOut:
    """One thing that would make a "no" a "yes" by itself: a limit (or the deadline, or an awaited outcome), its number
    now, and the number that would do, or None where none does. `added` says that the limit is none of the document:
    an `Add` put it in, as for a part that comes late, so it may be a fact and not to be given up."""

    limit: Limit | None
    letter: str | None
    is_now: int
    would_do: int | None
    added: bool = False

    @property
    def is_deadline(self) -> bool:
        return self.limit is None and self.letter is None


@dataclass(frozen=True)
class Late:
    """Until when an awaited outcome may be late: `until`, or for good (`ever`); neither, where even now is too late."""

    letter: str
    until: int | None
    ever: bool


def outlook(version: int, session: Session, verdict: Verdict, following: Next | Done | Verdict,
            latest: Mapping[str, int], until: int | None) -> Outlook:
    """The outlook of a session."""
    state = session.state.copy()
    awaited = tuple(Awaited(letter, (observer := state.plan.observers[letter].name), state.done[observer], at)
                    for letter, at in state.awaited().items())
    waiting = tuple(Waiting(it.event, it.waits_for) for it in session.tellings.values()
                    if it.standing is Standing.WAITS)
    fallen = tuple(Fallen(it.event, it.why) for it in session.tellings.values() if it.standing is Standing.FELL)
    left_out = tuple(step.name for step in state.plan.steps if state.is_left_out(step.name))
    return Outlook(version, state.now, verdict, None if isinstance(following, Verdict) else following, latest, until,
                   awaited, state.done, state.seen, left_out, state.ready, tuple(state.further),
                   waiting, fallen, state.limits, state.deadline)
