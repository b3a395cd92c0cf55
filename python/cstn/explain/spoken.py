"""Moments as people read them: ticks, or the times of a clock."""
from __future__ import annotations

import math
import re
from dataclasses import dataclass
from typing import ClassVar

from .stopped import Stopped

DAY = 86400
STEPS = (1, 2, 5, 10, 15, 20, 30, 60, 120, 300, 600, 900, 1200, 1800, 3600, 7200, 10800, 14400, 21600, 43200, DAY)


@dataclass(frozen=True)
class Clock:
    """Says moments as ticks; with a start, in seconds of the day, as times, where a tick has some seconds."""

    start: int | None = None
    tick: int = 60

    def says(self, moment: int) -> str:
        """A moment as it stands in a picture."""
        if self.start is None:
            return str(moment)
        seconds = self.start + moment * self.tick
        days, rest = divmod(seconds, DAY)
        says = f"{rest // 3600:02d}:{rest % 3600 // 60:02d}"
        if self.start % 60 or self.tick % 60:
            says += f":{rest % 60:02d}"
        return f"{says} +{days}d" if days > 1 or moment * self.tick >= DAY else says

    @property
    def unit(self) -> str:
        """What a tick is called."""
        if self.start is None:
            return "ticks"
        return {1: "seconds", 60: "minutes", 3600: "hours", DAY: "days"}.get(self.tick, f"ticks of {self.tick} seconds")

    def lasts(self, ticks: int) -> str:
        """A length in words."""
        if self.start is None or self.tick % 60:
            return str(ticks)
        minutes = ticks * self.tick // 60
        return f"{minutes} min" if minutes < 120 else f"{minutes // 60}:{minutes % 60:02d} h"

    def marks(self, end: int, most: int) -> list[int]:
        """Round moments up to an end, most of them at most, and two at least where the end is above 0."""
        if self.start is None:
            wide = 10 ** max(0, len(str(end // most or 1)) - 1)
            step = next(it * wide for it in (1, 2, 5, 10, 20, 50) if end // (it * wide) < most)
            return list(range(0, end + 1, step))
        length = end * self.tick
        lengths = [it for it in STEPS if it % self.tick == 0] or [self.tick]
        step = next((it for it in lengths if length // it < most), DAY * math.ceil(length / (most * DAY)))
        first = -self.start % step
        return [at // self.tick for at in range(first, length + 1, step) if at % self.tick == 0]


def read_clock(start: str | None, tick: str | None) -> Clock:
    """The clock of the options `--start HH:MM` and `--tick SECONDS`."""
    found = re.fullmatch(r"([01]?\d|2[0-3]):([0-5]\d)(?::([0-5]\d))?", start or "0:00")
    if not found:
        raise Stopped(2, "--start is a time of the day, as 22:00 or 06:30:15")
    if tick is not None and not re.fullmatch(r"[1-9]\d{0,5}", tick):
        raise Stopped(2, "--tick is a number of seconds from 1 to 999999")
    if start is None:
        if tick is not None:
            raise Stopped(2, "--tick goes with --start.")
        return Clock()
    hours, minutes, seconds = (int(it or 0) for it in found.groups())
    return Clock(3600 * hours + 60 * minutes + seconds, int(tick or 60))


class Spoken:
    """How the words of an answer say moments, and letters for which there is a word."""

    clock = Clock()
    words: ClassVar[dict[str, str]] = {}
    takes_words: ClassVar[bool] = False
    """Whether the lines of the session may have words and times, so that hints have them too."""

    @classmethod
    def moment(cls, tick: int) -> str:
        """A moment in words: where there is a clock its time, and behind it the tick."""
        return str(tick) if cls.clock.start is None else f"{cls.clock.says(tick)} ({tick})"

    @classmethod
    def awaited(cls, tick: int, letter: str, now: int) -> str:
        """The line to type by which an outcome is awaited at a moment."""
        is_near = cls.clock.start is not None and abs(tick - now) * cls.clock.tick < DAY // 2
        is_whole = is_near and not cls.clock.tick % 60 and not (cls.clock.start or 0) % 60
        if not cls.takes_words:
            return f"await {tick} {letter}"
        return f"await {cls.clock.says(tick).split(' ')[0] if is_whole else tick} {cls.word(letter)}"

    @classmethod
    def word(cls, letter: str) -> str:
        """The word for a letter, or else the letter."""
        return cls.words.get(letter, letter)

    @classmethod
    def letter(cls, letter: str) -> str:
        """A letter in words: its word, and behind it the letter."""
        return f"{cls.words[letter]} ({letter})" if letter in cls.words else letter
