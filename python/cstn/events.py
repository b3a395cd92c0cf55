"""What is told of a plan: facts and edits, each as a line of `follow` and as an entry of a journal.

A moment is a tick, or an aware datetime where the follower has a clock. A `key` is the sender's: an event whose key was
told before counts once. Without one an event gets a key of its own. What is of another type raises `WrongType`.
"""
from __future__ import annotations

from collections.abc import Callable, Mapping
from dataclasses import dataclass, field, fields, replace
from datetime import datetime
from typing import Any

from cstn.errors import WrongType
from cstn.names import Label, printed, written

Moment = int | datetime


class Typed:
    """What is told, with values of the types that it says."""

    def __post_init__(self) -> None:
        for name, is_right, wanted in CHECKED:
            if hasattr(self, name) and not is_right(getattr(self, name)):
                raise WrongType(f"{wanted}, and not {getattr(self, name)!r}")


def is_number(value: object) -> bool:
    return isinstance(value, int) and not isinstance(value, bool)


def is_label(value: object) -> bool:
    return isinstance(value, Mapping) and all(isinstance(letter, str) and isinstance(marked, bool)
                                              for letter, marked in value.items())


def is_name(value: object) -> bool:
    return isinstance(value, str)


CHECKED: list[tuple[str, Callable[[object], bool], str]] = [
    *((name, is_name, "a step is named by a text") for name in ("step", "source", "target")),
    ("letter", is_name, "a letter is a text"),
    ("value", lambda it: isinstance(it, bool), "an outcome is True or False"),
    ("at", lambda it: is_number(it) or isinstance(it, datetime), "a moment is a whole tick or a datetime"),
    ("id", is_number, "the id of a limit is a whole number"),
    ("most", lambda it: it is None or is_number(it), "the value of a limit is a whole number"),
    ("label", is_label, "a label has True or False for each letter"),
    ("says", is_name, "a sentence is a text"),
    ("key", lambda it: it is None or is_name(it), "a key is a text")]
"""What may stand under each name, and how that is said."""


@dataclass(frozen=True)
class Did(Typed):
    """A step was done at a moment, which may be past."""

    step: str
    at: Moment
    key: str | None = None

    def __str__(self) -> str:
        return f"{self.step} done at {self.at}"


@dataclass(frozen=True)
class Saw(Typed):
    """The outcome of a letter came at a moment, which may be past."""

    letter: str
    value: bool
    at: Moment
    key: str | None = None

    def __str__(self) -> str:
        return f"{self.letter} {'true' if self.value else 'false'} at {self.at}"


@dataclass(frozen=True)
class Expect(Typed):
    """The outcome of a letter is expected at a moment, and not before; the last one counts."""

    letter: str
    at: Moment
    key: str | None = None

    def __str__(self) -> str:
        return f"{self.letter} expected at {self.at}"


@dataclass(frozen=True)
class NotBefore(Typed):
    """A step cannot be done before a moment, as for a part that comes then. The last one counts; 0 takes it back."""

    step: str
    at: Moment
    key: str | None = None

    def __str__(self) -> str:
        return f"{self.step} not before {self.at}"


@dataclass(frozen=True)
class Now(Typed):
    """It is this moment, and nothing else has happened before."""

    at: Moment
    key: str | None = None

    def __str__(self) -> str:
        return f"it is {self.at}"


@dataclass(frozen=True)
class Add(Typed):
    """A limit is added: `target` at most `most` ticks after `source`, where `label` holds; below 0, `source` at least
    that many ticks after `target`."""

    source: str
    target: str
    most: int
    label: Label = field(default_factory=dict)
    says: str = ""
    key: str | None = None

    def __post_init__(self) -> None:
        super().__post_init__()
        if self.most is None:
            raise WrongType("a limit that is added has a value")


@dataclass(frozen=True)
class Change(Typed):
    """A limit has another value now, or none (`most` is None): it is taken out."""

    id: int
    most: int | None
    key: str | None = None


@dataclass(frozen=True)
class Deadline(Typed):
    """The plan has to be done by another moment."""

    at: Moment
    key: str | None = None


@dataclass(frozen=True)
class Forgive(Typed):
    """What is broken is broken: each limit that what was done has broken so far is taken out."""

    key: str | None = None

    def __str__(self) -> str:
        return "what is broken is forgiven"


@dataclass(frozen=True)
class AddStep(Typed):
    """There is a further step, in every case, which nothing ties to the others yet: `Add` does."""

    step: str
    key: str | None = None

    def __str__(self) -> str:
        return f"a further step {self.step}"


Event = Did | Saw | Expect | NotBefore | Now | Add | Change | Deadline | Forgive | AddStep
KINDS: dict[str, type[Event]] = {
    "did": Did, "saw": Saw, "expect": Expect, "not_before": NotBefore, "now": Now, "add": Add, "change": Change,
    "deadline": Deadline, "forgive": Forgive, "step": AddStep}
NAMES = {kind: name for name, kind in KINDS.items()}


def is_event(value: object) -> bool:
    """Whether a value is one of these kinds."""
    return type(value) in NAMES


def line_of(event: Event) -> str:
    """The line of `follow` that tells an event whose moment is a tick."""
    match event:
        case Did(step, at):
            return f"did {at} {printed(step)}"
        case Saw(letter, value, at):
            return f"saw {at} {printed(letter)} {'true' if value else 'false'}"
        case Expect(letter, at):
            return f"await {at} {printed(letter)}"
        case Now(at):
            return f"now {at}"
        case Add(source, target, most, label):
            return f"add {printed(source)} {printed(target)} {most} {written(label)}"
        case Change(number, None):
            return f"remove {number}"
        case Change(number, most):
            return f"change {number} {most}"
        case Deadline(at):
            return f"deadline {at}"
        case Forgive():
            return "forgive"
        case NotBefore(step, at):
            return f"expect {at} {printed(step)}"
        case AddStep(step):
            return f"step {printed(step)}"


def with_key(event: Event, key: str | None) -> Event:
    """The same event under another key, or without one."""
    return replace(event, key=key)


def to_data(event: Event) -> dict[str, Any]:
    """An event whose moment is a tick as data of JSON."""
    values = {f.name: getattr(event, f.name) for f in fields(event) if value_stands(event, f.name)}
    return {"is": NAMES[type(event)]} | {
        name: dict(value) if isinstance(value, Mapping) else value for name, value in values.items()}


def value_stands(event: Event, name: str) -> bool:
    value = getattr(event, name)
    return name == "most" or value is not None and value != "" and value != {}


def from_data(data: dict[str, Any]) -> Event:
    """The event that data of JSON mean. Raises `ValueError` where they mean none."""
    try:
        return KINDS[data["is"]](**{name: value for name, value in data.items() if name != "is"})
    except (KeyError, TypeError) as error:
        raise ValueError(f"no event: {data!r}") from error
