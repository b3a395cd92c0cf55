"""Why a plan in sentences is refused, in words, with its line and a mark under the word in question.

What may stand at each place of a line stands in places.txt, which `./cstn` reads too.
"""
from __future__ import annotations

import re
from dataclasses import dataclass, field
from functools import lru_cache
from pathlib import Path

from cstn.explain.names import harmless

WORD = re.compile(r'"[^"]*"?|#.*|[^ \t\r]+')
SPAN = re.compile(r"-?[0-9][0-9:]*(?:\.\.(?:-?[0-9][0-9:]*)?)?")
MOST_VALUE, MOST_REACTION, LONGEST_LINE, MOST_BYTES = 1_000_000_000, 1000, 4096, 8_388_608
WIDEST, MOST_READ = 400, 1_000_000
"""How much of a line is shown, and how long a plan may be whose lines are named by others."""
NETWORK = {
    "N1": "there are more than 1024 steps, with Z and the ends of tasks",
    "N3": "there are more than 16384 constraints",
    "N4": "the deadline, {0}, is above 1000000",
    "N6": "a label names {0}, which no step observes",
    "N7": "{1} and {2} both observe {0}",
    "L1": "the start, Z, has a label",
    "L3": "the label of {3} names {1}, which no step observes",
    "L4": "{3} would have to know what it observes itself",
    "L5": "{3} is never executed: its label and those of the steps that observe its letters exclude each other",
    "deadline": "no line says the deadline: write deadline and a time, or say --deadline N",
    "long": f"a plan has at most {MOST_BYTES} bytes"}
OTHERWISE = "there are more than 16384 constraints, with those that labels add"


@lru_cache(maxsize=1)
def places() -> dict[str, tuple[str, dict[str, str]]]:
    """For each place of a line what may stand there in words, and to which place each word leads."""
    rows = [line.split(" | ") for line in (Path(__file__).parent / "places.txt").read_text("utf-8").split("\n")
            if line and not line.startswith("#")]
    return {name: (says.removesuffix(" |"), dict(it.split(":") for it in "".join(leads).split()))
            for name, says, *leads in rows}


@dataclass
class Line:
    """A line of a plan: its text, its words but for a comment, and where each begins."""

    text: str
    words: list[str] = field(default_factory=list)
    begins: list[int] = field(default_factory=list)

    @classmethod
    def of(cls, text: str) -> Line:
        line = cls(text)
        for found in WORD.finditer(text):
            if found[0].startswith("#"):
                break
            line.words.append(found[0])
            line.begins.append(found.start())
        return line

    def word(self, at: int) -> str:
        """The word at a place, counted from 1, and nothing where there is none."""
        return self.words[at - 1] if 1 <= at <= len(self.words) else ""

    def last(self, name: str) -> int:
        """The last place of a word, or of a name that it spells; 0 where there is none."""
        return max((at for at, it in enumerate(self.words, 1) if name in (it, printed(it))), default=0)

    def first(self, name: str) -> int:
        return next((at for at, it in enumerate(self.words, 1) if printed(it) == name), 0)


def printed(word: str) -> str:
    """The name that a word spells, in the form in which the program prints it."""
    return word[1:-1].replace(" ", "%20").replace("%22", '"') if word.startswith('"') else word


class Refusal:
    """What the program answers to a plan that it refuses, over the plan: `why` says it in words, and `mark` is then the
    place of the word in question in its line, or 0."""

    def __init__(self, text: bytes, answer: str) -> None:
        parts = answer.split(" ")
        self.number = int(parts[2]) if parts[1] == "line" else 0
        self.kind, *self.more = parts[3:] if self.number else parts[1:]
        rows = text.removeprefix(b"\xef\xbb\xbf").split(b"\n")
        self.raw = rows[self.number - 1] if 0 < self.number <= len(rows) else b""
        self.line = Line.of(self.raw.decode(errors="replace"))
        self.said: dict[str, int] = {}
        self.tasks: set[str] = set()
        self.mark = 0
        for number, row in enumerate(rows if len(text) <= MOST_READ else [], 1):
            self.keep(number, Line.of(row.decode(errors="replace")))

    @property
    def name(self) -> str:
        return self.more[0] if self.more else ""

    def keep(self, number: int, line: Line) -> None:
        """Notes in which line a step or a task was first said."""
        kind, name = line.word(1), printed(line.word(2))
        if kind in ("step", "task"):
            self.said.setdefault(name, number)
        if kind == "task":
            self.said.setdefault(f"{name}.end", number)
            self.tasks.add(name)

    def why(self) -> str:
        """Why the plan is refused."""
        found = {"word": self.of_word, "range": self.of_range, "twice": self.of_twice, "name": self.of_name,
                 "letter": self.of_letter}.get(self.kind)
        if found:
            return found()
        names = [*self.more[1:3], "", ""]
        at = [self.at_line(it) for it in (names[0], names[1], self.name)]
        if self.kind == "L3":
            at[0] = names[0]
        return NETWORK.get(self.kind, OTHERWISE).format(self.name, *at)

    def at_line(self, name: str) -> str:
        return f"{name} (line {self.said[name]})" if name in self.said else name

    def of_word(self) -> str:
        place = int(self.name)
        if place == 0:
            if len(self.raw) > LONGEST_LINE:
                return f"a line has at most {LONGEST_LINE} bytes"
            if self.line.words and re.fullmatch('"[^"]*', self.line.words[-1]):
                self.mark = len(self.line.words)
                return "this quote has no end"
            return "the line is not UTF-8"
        table, state = places(), "line"
        for word in self.line.words[:place - 1]:
            leads = table[state][1]
            kinds = [word, *(["LETTER"] if re.fullmatch("[A-Za-z]", word) else []),
                     *(["NEGATIVE"] if word.startswith("-") else []), "*"]
            state = next((leads[it] for it in kinds if it in leads), "nothing")
        self.mark = place
        return f"here may stand {table[state][0]}"

    def of_range(self) -> str:
        line = self.line
        if line.word(1) == "start" and len(line.words) == 2:
            self.mark = 2
            return "a clock is from 0:00 to 23:59"
        for self.mark in range(2, len(line.words) + 1):
            if SPAN.fullmatch(line.word(self.mark)) and (says := self.of_span(line.word(self.mark))):
                return says
        self.mark = next((at for at in range(2, len(line.words) + 1) if line.word(at - 1) == "at"), 0)
        return "by the clock the range ends before it begins" if self.mark else \
            f"a number is above {MOST_VALUE} with the reaction of its result"

    def of_span(self, word: str) -> str:
        """What is wrong with a range or a number, or nothing."""
        ends = [ticks(it) for it in word.split("..") if it]
        if any(abs(it) > MOST_VALUE for it in ends):
            return f"a number is above {MOST_VALUE} either way"
        if len(ends) == 2 and ends[0] > ends[1]:
            return "the range ends before it begins"
        is_reaction = self.line.word(1) in ("step", "task") and self.line.word(self.mark - 1) == "after"
        return f"a reaction is from 1 to {MOST_REACTION}" if is_reaction and not 1 <= ends[0] <= MOST_REACTION else ""

    def of_twice(self) -> str:
        line, kind = self.line, self.line.word(1)
        if self.name in ("deadline", "start") and kind == self.name:
            self.mark = 1
            return f"the {self.name} was said above"
        own = {printed(line.word(2)), f"{printed(line.word(2))}.end" if kind == "task" else ""}
        if kind in ("step", "task") and self.name in own and self.said.get(self.name, self.number) < self.number:
            self.mark = 2
            return f"line {self.said[self.name]} has a step {self.name} already"
        self.mark = line.last(self.name)
        if line.word(self.mark - 1) == "as":
            return "this letter has another word already"
        if line.word(self.mark + 1) == "as":
            return "this word stands for another letter already"
        return f"the letter of {self.name} stands twice in the label"

    def of_name(self) -> str:
        line, name = self.line, self.name
        if line.word(1) == "task" and printed(line.word(2)) == name:
            self.mark = 2
            return "the start, Z, is no task" if name == "Z" else "the name of a task has at most 60 bytes"
        of = [at for at in range(2, len(line.words) + 1)
              if line.word(at - 1) == "of" and printed(line.word(at)) == name]
        if of and (name == "Z" or name in self.said) and name not in self.tasks:
            self.mark = of[0]
            return f"{name} is a step, and no task"
        self.mark = line.first(name)
        return f"no line says step {name}, or task {name}"

    def of_letter(self) -> str:
        line, name = self.line, self.name
        self.mark = next((at for at in range(2, len(line.words) + 1)
                          if line.word(at) == name and line.word(at - 1) in ("if", "and", "not", "of")), 0)
        if len(name) == 1:
            return f"no step observes {name}"
        return f"{name} stands for no letter: no step observes {name} as a letter"

    def shown(self) -> list[str]:
        """The line in question, and a mark under the word, where there is one; after `why`."""
        if not self.number:
            return []
        text = self.line.text.replace("\t", " ")[:WIDEST]
        if not self.mark:
            return [harmless(text)]
        begins = self.line.begins + [len(self.line.text.rstrip()) + 1]
        at = min(self.mark, len(begins)) - 1
        before, word = harmless(text[:begins[at]]).ljust(begins[at]), harmless(self.line.word(at + 1))
        return [harmless(text), " " * len(before) + "^" * max(1, len(word))]


def ticks(word: str) -> int:
    """The ticks of a time, or the minutes since midnight of one of the clock."""
    hours, _, minutes = word.removeprefix("-").rpartition(":")
    return (-1 if word.startswith("-") else 1) * (60 * int(hours or 0) + int(minutes or 0))


def why_refused(text: bytes, answer: str) -> tuple[str, list[str]]:
    """Why the program refuses a plan, by its answer: in words, and the line in question with its mark."""
    refusal = Refusal(text, answer)
    return harmless(refusal.why()), refusal.shown()
