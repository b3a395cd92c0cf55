"""What the lines of a plan in sentences say: which constraints each has, and its words for letters.

The program reads such a plan, and writes its document. Here only those that it accepted are read, to name their lines.
"""
from __future__ import annotations

import re
from collections.abc import Iterator
from dataclasses import dataclass, field
from urllib.parse import unquote

WORD = re.compile(r'"[^"]*"|#.*|[^ \t\r]+')
CLOCK = re.compile(r"(\d{1,2}):(\d\d)")


@dataclass
class Said:
    """The line of each constraint with its words, the lines of time-points, labels and observations, the word for each
    letter that has one, and the seconds of the day at tick 0, if the plan tells them."""

    rows: list[int] = field(default_factory=list)
    says: list[str] = field(default_factory=list)
    lines: dict[tuple[str | None, str], int] = field(default_factory=dict)
    words: dict[str, str] = field(default_factory=dict)
    start: int | None = None

    def hear(self, number: int, words: list[str]) -> None:
        """Takes a line in, without its comment."""
        clock = CLOCK.fullmatch(words[1]) if words[0] == "start" else None
        if clock:
            self.start = 3600 * int(clock[1]) + 60 * int(clock[2])
        elif words[0] in ("step", "task"):
            self.declare(number, words)
        if words[0] not in ("deadline", "step") and not clock:
            count = constraints_of(words)
            self.rows += [number] * count
            self.says += [" ".join(words)] * count

    def declare(self, number: int, words: list[str]) -> None:
        """Notes the lines of a step or of a task, and its word for what it observes."""
        name = name_of(words[1])
        for one in [name, f"{name}.end"] if words[0] == "task" else [name]:
            self.lines[one, "id"] = self.lines[one, "Obs"] = self.lines[one, "Label"] = number
        if "observes" in words[2:] and "as" in words[2:]:
            at = words.index("as", 2)
            self.words[words[at + 1]] = words[at - 1]


def name_of(word: str) -> str:
    """The name that a word spells."""
    return unquote(word[1:-1] if word.startswith('"') else word)


def bounds(span: str) -> int:
    """How many bounds a range has: at least and at most, or at least alone."""
    return 1 if span.endswith("..") else 2


def constraints_of(words: list[str]) -> int:
    """How many constraints a line has that is of a task, or says when a time-point comes."""
    if words[0] == "task":
        return bounds(words[2])
    told = words[3:] if words[1] == "of" else words[1:]
    refs = told[:told.index("if")] if "if" in told else told
    count = {"at": bounds(told[1]), "by": 1, "within": 2, "after": 1, "with": 2}.get(told[0], bounds(told[0]))
    return count * (1 + refs.count("and"))


def words_of(text: bytes) -> Iterator[tuple[int, list[str]]]:
    """The number of each line that says something, and its words, quotes kept."""
    for number, line in enumerate(text.removeprefix(b"\xef\xbb\xbf").split(b"\n"), 1):
        words = [it for it in WORD.findall(line.decode(errors="replace")) if not it.startswith("#")]
        if words:
            yield number, words


def said(text: bytes) -> Said:
    """What the lines of a plan say that the program accepted."""
    found = Said()
    for number, words in words_of(text):
        found.hear(number, words)
    return found
