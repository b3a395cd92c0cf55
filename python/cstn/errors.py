"""What goes wrong, as types. A call that raises one of these has changed nothing; after `OutOfTime` and `Unavailable`,
and after `NotKept` where a connection was lost, an event may be kept, and is told again with its key."""
from __future__ import annotations

from dataclasses import dataclass, field


class CstnError(Exception):
    """The root of all errors of this package."""


class NoProgram(CstnError):
    """No program `cstn` was found, or the one that was found writes other lines than this package reads."""


@dataclass(eq=False)
class BadDocument(CstnError):
    """The program refuses a document: `code` is `X1` to `X12` or `long`, `says` all of its words.

    `line` and `column`, counted from 1, are where the fault stands, if it stands at a place. Of a plan in sentences
    `code` is the first word of the refusal that is no place, as `word` or `N6`, and there is no column. `why` says it
    in words, and `shown` are lines that a person may look at, of a plan in sentences its own with a mark below.
    """

    code: str
    says: str
    line: int | None = None
    column: int | None = None
    why: str = ""
    shown: tuple[str, ...] = ()

    def __str__(self) -> str:
        where = "" if self.column is None else f" (line {self.line}, column {self.column})"
        why = f": {self.why}" if self.why else ""
        return "\n  ".join([self.says + where + why, *self.shown])


@dataclass(eq=False)
class Refused(CstnError):
    """An event is not taken: `code` is `F1` to `F8`, `S1` to `S7`, or `line`, `key`, `type` or `clock`, which the
    package says.

    `says` is what a person may read.
    """

    code: str
    says: str

    def __str__(self) -> str:
        return self.says


@dataclass(eq=False)
class Unknown(Refused):
    """The plan has no such step, letter, limit or key: `name`."""

    name: str = ""


@dataclass(frozen=True)
class WaitsFor:
    """What has to be told before an event can be taken: that steps were done, and the outcomes of letters."""

    steps: tuple[str, ...] = ()
    letters: tuple[str, ...] = ()

    def __bool__(self) -> bool:
        return bool(self.steps or self.letters)


@dataclass(eq=False)
class NotYet(Refused):
    """What was told so far does not allow the event; `waits_for` is what has to come first."""

    waits_for: WaitsFor = field(default=WaitsFor())


@dataclass(eq=False)
class Contradicts(Refused):
    """What was told before excludes the event: `recorded` is that moment or outcome, `with_key` its event's key."""

    recorded: int | bool | None = None
    with_key: str | None = None


@dataclass(eq=False)
class OutOfRange(Refused):
    """A moment or a value is above what the program takes, or is in the future by the plan's clock, or is past."""


class WrongType(Refused, TypeError):
    """Something that was given is of another type than it may be, as a text where a moment stands. Its `code` is
    `type`."""

    def __init__(self, says: str) -> None:
        super().__init__("type", says)


@dataclass(eq=False)
class TooMany(Refused):
    """There is no room for what the event adds: 16,384 constraints, or 1,000,000 edits."""


@dataclass(eq=False)
class Moved(CstnError):
    """The journal has an entry of this version already: another client was first. `says` is what a person may read."""

    version: int
    says: str = ""

    def __str__(self) -> str:
        return self.says or f"another client has written version {self.version}"


class NotKept(CstnError):
    """The journal could not take the event: a full disk, a lost connection. One that is lost at the commit leaves open
    whether the event is kept."""


class Busy(CstnError):
    """Another client holds the plan's journal for longer than this one waits."""


class OutOfTime(CstnError):
    """A question was broken off after its time limit; the plan stands as before."""


class Unavailable(CstnError):
    """No process answers: no memory, no program, or one that answers what is no answer."""


class Changed(CstnError):
    """A journal is of another document or another version, or is answered otherwise than it was."""
