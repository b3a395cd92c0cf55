"""Which moment of the wall clock is which tick."""
from __future__ import annotations

from dataclasses import dataclass
from datetime import datetime, timedelta, timezone

from cstn.errors import WrongType


@dataclass(frozen=True)
class Clock:
    """Tick 0 begins at `origin`, and each lasts `tick`. A moment is rounded down to the tick that has begun.

    Origin and moments are aware datetimes; a naive one, or anything else, raises `WrongType`.
    """

    origin: datetime
    tick: timedelta = timedelta(minutes=1)

    def __post_init__(self) -> None:
        if not isinstance(self.tick, timedelta):
            raise WrongType(f"a tick is a timedelta, and not {self.tick!r}")
        if self.tick <= timedelta(0):
            raise ValueError("a tick lasts longer than nothing")
        in_utc(self.origin)

    def tick_of(self, when: datetime) -> int:
        """The tick that has begun at a moment, below 0 before the origin."""
        return (in_utc(when) - in_utc(self.origin)) // self.tick

    def time_of(self, tick: int) -> datetime:
        """The moment at which a tick begins, in the time zone of the origin."""
        return (in_utc(self.origin) + tick * self.tick).astimezone(self.origin.tzinfo)

    def shown(self, tick: int) -> str:
        """The moment at which a tick begins, for a person: `2026-03-02 08:51+01:00`."""
        try:
            time = self.time_of(tick)
        except OverflowError:
            return str(tick)
        return time.isoformat(" ", "seconds" if time.second or time.microsecond else "minutes")

    def now(self) -> int:
        """The tick that it is by the system's clock."""
        return self.tick_of(datetime.now(timezone.utc))


def in_utc(when: datetime) -> datetime:
    """The same moment in UTC. Between two of one time zone Python counts the hours that its clocks show, and so one
    too few or too many where these are put forward or back."""
    if not isinstance(when, datetime) or when.utcoffset() is None:
        raise WrongType(f"a moment of the wall clock is a datetime with a time zone, and not {when!r}")
    return when.astimezone(timezone.utc)
