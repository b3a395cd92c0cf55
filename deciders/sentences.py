#!/usr/bin/env -S python3 -B
"""A second opinion on plans in sentences: what network a text says, why it is refused, and a network in sentences.

    deciders/sentences.py plan FILE [--deadline N]          writes the canonical document, or the refusal
    deciders/sentences.py sentences FILE [--deadline N]     FILE is a canonical document

It shares nothing with the program. The grammar stands in LINES and PARTS; a line is read by all its readings at once.
"""
import re
import sys
from functools import lru_cache
from typing import Iterator, NamedTuple
from urllib.parse import unquote_to_bytes

from documents import Network, Point, as_document, fault, in_print, of_document

MOST_BYTES = 8_388_608
MOST_IN_LINE = 4_096
MOST_IN_NAME = 64
MOST_IN_TASK = 60
MOST = 1_000_000_000
MOST_REACTION = 1_000
DAY = 24 * 60

LINES = (
    "deadline TIME",
    "start CLOCK",
    "step NAME OBSERVES? IF?",
    "task NAME RANGE OBSERVES? IF?",
    "POINT at RANGE IF?",
    "POINT by TIME IF?",
    "POINT RANGE after REFS IF?",
    "POINT by SPAN after REFS IF?",
    "POINT within TIME after REFS IF?",
    "POINT after REFS IF?",
    "POINT with REFS IF?",
)
PARTS = {
    "OBSERVES": ("observes OUTCOME REACTION?",),
    "OUTCOME": ("LETTER", "WORD as LETTER"),
    "REACTION": ("after TIME",),
    "IF": ("if LITERAL MORE*",),
    "MORE": ("and LITERAL",),
    "LITERAL": ("not? PROPOSITION",),
    "REFS": ("REF FURTHER*",),
    "FURTHER": ("and REF",),
    "REF": ("POINT", "result of PROPOSITION"),
    "POINT": ("NAME", "start of NAME", "end of NAME"),
}
KEYWORDS = frozenset("deadline start step task observes as after if and not at by within with result end of".split())


class Refused(Exception):
    """Why a text is no plan, as the program would write it."""


# Words.


class Word(NamedTuple):
    """A word of a line, without its quotes."""

    text: str
    quoted: bool


def words_of(line: bytes) -> list[Word]:
    """The words of a line. A line that can't be cut into words raises ValueError."""
    if len(line) > MOST_IN_LINE:
        raise ValueError("too long")
    text, words = line.decode(), []
    while text := text.lstrip(" \t\r"):
        if text[0] == "#":
            break
        if text[0] == '"':
            inside, quote, text = text[1:].partition('"')
            if not quote:
                raise ValueError("no second quote")
            words.append(Word(inside, True))
        else:
            bare = re.match(r"[^ \t\r]+", text)[0]
            words.append(Word(bare, False))
            text = text[len(bare):]
    return words


def spelled(name: str) -> str:
    """The one spelling of a name."""
    if re.search(r'[" ]', name) or name[0] == "#" or name in KEYWORDS:
        return f'"{in_print(name).replace("%20", " ").replace(chr(34), "%22")}"'
    return in_print(name)


def name_of(word: Word) -> str | None:
    """The name that a word spells."""
    try:
        name = unquote_to_bytes(word.text).decode()
    except UnicodeDecodeError:
        return None
    if not 1 <= len(name.encode()) <= MOST_IN_NAME:
        return None
    return name if spelled(name) == (f'"{word.text}"' if word.quoted else word.text) else None


# Times, spans and ranges.


class Time(NamedTuple):
    """A number of ticks, and whether it may be a time of the clock."""

    ticks: int
    is_clock: bool = False

    def by(self, start: int | None) -> int:
        """The tick that is meant where the clock counts, which shows so many minutes at tick 0."""
        if start is not None and self.is_clock and self.ticks < DAY:
            return (self.ticks - start) % DAY
        return self.ticks


class Range(NamedTuple):
    """The least and the most, of which one may be missing."""

    least: Time | None
    most: Time | None


def time_of(text: str) -> Time | None:
    if clock := re.fullmatch(r"([0-9]{1,4}):([0-5][0-9])", text):
        return Time(60 * int(clock[1]) + int(clock[2]), True)
    return Time(int(text)) if re.fullmatch(r"0|[1-9][0-9]*", text) else None


def span_of(text: str) -> Time | None:
    if not text.startswith("-"):
        return time_of(text)
    time = time_of(text[1:])
    return Time(-time.ticks) if time and time.ticks else None


def range_of(text: str) -> Range | None:
    low, dots, high = text.partition("..")
    least, most = span_of(low), span_of(high) if high or not dots else None
    if not dots:
        return least and Range(least, least)
    return Range(least, most) if least and (most or not high) else None


# What may stand for a symbol of the grammar, and what is read of it.


def letter_of(text: str) -> str | None:
    return text if re.fullmatch("[A-Za-z]", text) else None


def long_word_of(text: str) -> str | None:
    return text if re.fullmatch("[A-Za-z][A-Za-z0-9_-]{1,63}", text) and text not in KEYWORDS else None


def bare(read):
    return lambda word: None if word.quoted else read(word.text)


READERS = {
    "NAME": name_of,
    "TIME": bare(time_of),
    "CLOCK": bare(lambda text: time_of(text) if ":" in text else None),
    "SPAN": bare(span_of),
    "RANGE": bare(range_of),
    "LETTER": bare(letter_of),
    "WORD": bare(long_word_of),
    "PROPOSITION": bare(lambda text: letter_of(text) or long_word_of(text)),
}


@lru_cache(maxsize=100_000)
def read_as(symbol: str, word: Word):
    """What is read of a word where the symbol stands; nothing where it can't stand for it."""
    if symbol in READERS:
        return READERS[symbol](word)
    return word.text if word == Word(symbol, False) else None


class Automaton:
    """The readings of a line: states, each with its symbol and the states behind it. A line may end in state END."""

    END = 0

    def __init__(self) -> None:
        self.symbols: list[str] = [""]
        self.behind: list[set[int]] = [set()]
        self.first = self.any_of(LINES, {self.END})

    def any_of(self, forms: tuple[str, ...], behind: set[int]) -> set[int]:
        return set().union(*(self.row_of(form.split(), behind) for form in forms))

    def row_of(self, symbols: list[str], behind: set[int]) -> set[int]:
        for symbol in reversed(symbols):
            behind = self.one_of(symbol.rstrip("?*"), behind, symbol[-1])
        return behind

    def one_of(self, symbol: str, behind: set[int], how: str) -> set[int]:
        """The states with which a symbol begins, with these behind it; `how` says whether it may lack or repeat."""
        if how == "*":
            again = set(behind)
            again |= self.one_of(symbol, again, "")
            return again
        if symbol in PARTS:
            first = self.any_of(PARTS[symbol], behind)
        else:
            self.symbols.append(symbol)
            self.behind.append(behind)
            first = {len(self.symbols) - 1}
        return first | behind if how == "?" else first

    def reading(self, words: list[Word]) -> tuple[list[tuple[str, object]] | None, int]:
        """The symbols of a line with what is read for each, and how many of its words begin a line."""
        ways: dict[int, tuple] = {state: () for state in self.first}
        for count, word in enumerate(words):
            on: dict[int, tuple] = {}
            for state, way in ways.items():
                symbol = self.symbols[state]
                if symbol and (read := read_as(symbol, word)) is not None:
                    on.update((next_one, (way, (symbol, read))) for next_one in self.behind[state])
            if not on:
                return None, count
            ways = on
        if self.END not in ways:
            return None, len(words)
        found, way = [], ways[self.END]
        while way:
            way, last = way
            found.append(last)
        return found[::-1], len(words)

    def awaited(self, words: list[Word]) -> list[str]:
        """The symbols that may stand behind words that are the beginning of a line; an empty one for its end."""
        states = self.first
        for word in words:
            states = set().union(*(self.behind[state] for state in states
                                   if self.symbols[state] and read_as(self.symbols[state], word) is not None))
        return sorted({self.symbols[state] for state in states})


AUTOMATON = Automaton()


# Lines.


class PointRef(NamedTuple):
    """A name, perhaps behind `end of` or `start of`."""

    name: str
    side: str = ""


class Result(NamedTuple):
    """The moment at which an outcome is known."""

    of: str


class Observes(NamedTuple):
    letter: str
    word: str | None
    reaction: int


class Line(NamedTuple):
    """A line as it is read: what kind it is, and its parts."""

    number: int
    kind: str
    point: PointRef | None = None
    times: Range = Range(None, None)
    refs: tuple[PointRef | Result, ...] = ()
    observes: Observes | None = None
    label: tuple[tuple[str, bool], ...] = ()


class Symbols:
    """The symbols of a line, read from the left."""

    def __init__(self, symbols: list[tuple[str, object]]):
        self.left = symbols[::-1]

    def has(self, *symbols: str) -> bool:
        return bool(self.left) and self.left[-1][0] in symbols

    def take(self, *symbols: str):
        """What is read for the next symbol, if it is one of these."""
        return self.left.pop()[1] if self.has(*symbols) else None

    def point(self) -> PointRef:
        side = self.take("start", "end") or ""
        self.take("of")
        return PointRef(self.take("NAME"), side)

    def ref(self) -> PointRef | Result:
        if self.take("result"):
            self.take("of")
            return Result(self.take("PROPOSITION"))
        return self.point()

    def refs(self) -> tuple[PointRef | Result, ...]:
        found = [self.ref()]
        while self.take("and"):
            found.append(self.ref())
        return tuple(found)

    def observes(self) -> Observes | None:
        if not self.take("observes"):
            return None
        word = self.take("WORD")
        self.take("as")
        letter = self.take("LETTER")
        return Observes(letter, word, self.take("TIME").ticks if self.take("after") else 1)

    def label(self) -> tuple[tuple[str, bool], ...]:
        found = []
        while self.take("if", "and"):
            holds = not self.take("not")
            found.append((self.take("PROPOSITION"), holds))
        return tuple(found)


def line_of(number: int, symbols: list[tuple[str, object]]) -> Line:
    """A line by its symbols."""
    it, kind = Symbols(symbols), symbols[0][0]
    if kind == "deadline" or [symbol for symbol, _ in symbols] == ["start", "CLOCK"]:
        return Line(number, kind, times=Range(symbols[1][1], symbols[1][1]))
    if kind in ("step", "task"):
        it.take(kind)
        point = it.point()
        return Line(number, kind, point, it.take("RANGE") or Range(None, None), (), it.observes(), it.label())
    point, kind, zero = it.point(), it.left[-1][0], Time(0)
    if kind in ("at", "RANGE"):
        it.take("at")
        times = it.take("RANGE")
    elif kind in ("by", "within"):
        it.take(kind)
        times = Range(zero if kind == "within" else None, it.take("TIME", "SPAN"))
    else:
        times = Range(zero, zero if kind == "with" else None)
    refs = it.refs() if it.take("after", "with") else ()
    return Line(number, kind, point, times, refs, None, it.label())


# The second pass, line by line, and the third, which looks names and letters up.


class Text:
    """What the lines of a text say, as far as they were read."""

    def __init__(self) -> None:
        self.lines: list[Line] = []
        self.deadline: Time | None = None
        self.start: int | None = None
        self.steps: dict[str, Line | None] = {"Z": None}
        self.tasks: set[str] = set()
        self.letters: dict[str, str] = {}

    def hear(self, number: int, line: bytes) -> None:
        """Takes a line in."""
        try:
            words = words_of(line)
        except ValueError:
            raise Refused(f"line {number} word 0") from None
        if not words:
            return
        symbols, right = AUTOMATON.reading(words)
        if symbols is None:
            raise Refused(f"line {number} word {right + 1}")
        heard = line_of(number, symbols)
        if is_out_of_range(heard):
            raise Refused(f"line {number} range")
        for twice in self.told_twice(heard):
            raise Refused(f"line {number} {twice}")
        self.keep(heard)

    def told_twice(self, line: Line) -> Iterator[str]:
        """What of a line was said before, or says a word twice, in the order of the refusals."""
        if line.kind == "deadline" and self.deadline or line.kind == "start" and self.start is not None:
            yield f"twice {line.kind}"
        if line.kind in ("step", "task"):
            name = line.point.name
            for one in [name, name + ".end"] if line.kind == "task" else [name]:
                if self.steps.get(one):
                    yield f"twice {in_print(one)}"
            if line.kind == "task" and (name == "Z" or len(name.encode()) > MOST_IN_TASK):
                yield f"name {in_print(name)}"
        if line.observes and line.observes.word:
            letter, word, _ = line.observes
            if self.letters.get(word, letter) != letter:
                yield f"twice {word}"
            if any(mine == letter and other != word for other, mine in self.letters.items()):
                yield f"twice {letter}"
        words = [word for word, _ in line.label]
        yield from (f"twice {word}" for place, word in enumerate(words) if word in words[:place])

    def keep(self, line: Line) -> None:
        self.lines.append(line)
        if line.kind == "deadline":
            self.deadline = line.times.least
        elif line.kind == "start":
            self.start = line.times.least.ticks
        elif line.kind in ("step", "task"):
            self.steps[line.point.name] = line
            if line.kind == "task":
                self.steps[line.point.name + ".end"] = line
                self.tasks.add(line.point.name)
            if line.observes and line.observes.word:
                self.letters[line.observes.word] = line.observes.letter


def is_out_of_range(line: Line) -> bool:
    """A number that a line says is too large or too small, or a range is none."""
    least, most = line.times
    if line.kind == "start":
        return least.ticks >= DAY
    if any(time and abs(time.ticks) > MOST for time in line.times):
        return True
    if line.kind != "at" and least and most and least.ticks > most.ticks:
        return True
    return line.observes is not None and not 1 <= line.observes.reaction <= MOST_REACTION


class Reader:
    """Looks up the names and letters of the lines of a text, and makes its network."""

    def __init__(self, text: Text):
        self.text = text
        self.points: list[Point] = []
        self.numbers: dict[str, int] = {}
        self.constraints: list[tuple[int, int, int, dict[str, bool]]] = []
        self.observers: dict[str, tuple[int, int]] = {}

    def network(self, deadline: int | None) -> Network:
        """The network of the text, by this deadline or its own."""
        for number, name in enumerate(self.text.steps):
            self.numbers[name] = number
        for name, line in self.text.steps.items():
            self.see(name, line)
        labels = {line.number: self.told(line) for line in self.text.lines}
        for name, line in self.text.steps.items():
            observes = line.observes if line and self.observed_at(line) == name else None
            self.points.append(Point(name, observes and observes.letter, observes.reaction if observes else 1,
                                     labels[line.number] if line else {}))
        if deadline is None:
            if self.text.deadline is None:
                raise Refused("deadline")
            deadline = self.text.deadline.by(self.text.start)
        return Network(deadline, self.points, self.constraints)

    @staticmethod
    def observed_at(line: Line) -> str:
        """The name of the time-point at which a line observes."""
        return line.point.name + (".end" if line.kind == "task" else "")

    def see(self, name: str, line: Line | None) -> None:
        """Notes the first time-point that observes a letter, with its reaction."""
        if line and line.observes and self.observed_at(line) == name:
            self.observers.setdefault(line.observes.letter, (self.numbers[name], line.observes.reaction))

    def told(self, line: Line) -> dict[str, bool]:
        """The label of a line, of which the constraints are kept."""
        if line.kind in ("deadline", "start"):
            return {}
        if line.kind in ("step", "task"):
            if line.kind == "task":
                ends = self.numbers[line.point.name + ".end"], self.numbers[line.point.name]
                self.say(*ends, *ticks_of(line.times), {})
            return self.label_of(line)
        point = self.point_of(line.number, line.point, is_end=line.kind == "by")
        least, most = ticks_of(line.times)
        if line.kind == "at":
            least, most = (time and time.by(self.text.start) for time in line.times)
            if most is not None and least > most:
                raise Refused(f"line {line.number} range")
        elif line.kind == "by" and not line.refs:
            most = line.times.most.by(self.text.start)
        refs = [self.ref_of(line.number, ref) for ref in line.refs] or [(0, 0)]
        label = self.label_of(line)
        for other, more in refs:
            if any(bound is not None and bound + more > MOST for bound in (least, most)):
                raise Refused(f"line {line.number} range")
            self.say(point, other, *(None if bound is None else bound + more for bound in (least, most)), label)
        return label

    def say(self, point: int, other: int, least: int | None, most: int | None, label: dict[str, bool]) -> None:
        """Keeps that a time-point is at least and at most so many ticks after another."""
        if least is not None:
            self.constraints.append((point, other, -least, label))
        if most is not None:
            self.constraints.append((other, point, most, label))

    def point_of(self, number: int, point: PointRef, is_end: bool) -> int:
        """The time-point that is meant, the end of a task if nothing else is said and `is_end`."""
        name, side = point
        if name not in (self.text.tasks if side else self.numbers):
            raise Refused(f"line {number} name {in_print(name)}")
        if side == "end" or not side and is_end and name in self.text.tasks:
            name += ".end"
        return self.numbers[name]

    def ref_of(self, number: int, ref: PointRef | Result) -> tuple[int, int]:
        """The time-point that is meant, and how many ticks behind it."""
        if isinstance(ref, PointRef):
            return self.point_of(number, ref, is_end=True), 0
        letter = self.letter_of(number, ref.of)
        if letter not in self.observers:
            raise Refused(f"line {number} letter {ref.of}")
        return self.observers[letter]

    def letter_of(self, number: int, word: str) -> str:
        if len(word) > 1 and word not in self.text.letters:
            raise Refused(f"line {number} letter {word}")
        return self.text.letters.get(word, word)

    def label_of(self, line: Line) -> dict[str, bool]:
        label: dict[str, bool] = {}
        for word, holds in line.label:
            letter = self.letter_of(line.number, word)
            if letter in label:
                raise Refused(f"line {line.number} twice {word}")
            label[letter] = holds
        return label


def ticks_of(times: Range) -> tuple[int | None, int | None]:
    return times.least and times.least.ticks, times.most and times.most.ticks


def heard_in(text: bytes) -> Text:
    """What the lines of a text say, or Refused."""
    if len(text) > MOST_BYTES:
        raise Refused("long")
    heard = Text()
    for number, line in enumerate(text.removeprefix(b"\xef\xbb\xbf").split(b"\n"), 1):
        heard.hear(number, line)
    return heard


def network_said(text: bytes, deadline: int | None = None) -> Network:
    """The network that a text says, whatever may be wrong with the network; or Refused."""
    return Reader(heard_in(text)).network(deadline)


def plan(text: bytes, deadline: int | None = None) -> Network:
    """The network that a text says, or Refused."""
    network = network_said(text, deadline)
    if why := fault(network):
        raise Refused(why)
    return network


# The way back.


def label_said(label: dict[str, bool]) -> str:
    marks = [("" if holds else "not ") + letter for letter, holds in sorted(label.items())]
    return " if " + " and ".join(marks) if marks else ""


def is_pair(one, other) -> bool:
    """Two constraints that say at least and at most of the same."""
    return one[:2] == other[1::-1] and one[3] == other[3] and 0 <= -one[2] <= other[2]


def pair_said(name: str, other: str, least: int, most: int) -> str:
    if other == "Z":
        return f"{name} at {least}" if least == most else f"{name} at {least}..{most}"
    if least == most:
        return f"{name} {least} after {other}" if least else f"{name} with {other}"
    return f"{name} {least}..{most} after {other}" if least else f"{name} within {most} after {other}"


def one_said(source: str, target: str, value: int) -> str:
    if source == "Z" and value >= 0:
        return f"{target} by {value}"
    if value > 0:
        return f"{target} by {value} after {source}"
    if target == "Z":
        return f"{source} at {-value}.."
    return f"{source} {-value}.. after {target}" if value else f"{source} after {target}"


def sentences(network: Network) -> bytes:
    """A network in sentences."""
    names, lines = [spelled(point.name) for point in network.points], [f"deadline {network.deadline}"]
    for number, (_, letter, reaction, label) in enumerate(network.points):
        if number or letter:
            slow = f" after {reaction}" if reaction != 1 else ""
            lines.append(f"step {names[number]}" + (f" observes {letter}{slow}" if letter else "") + label_said(label))
    left = network.constraints[::-1]
    while left:
        source, target, value, label = one = left.pop()
        if left and is_pair(one, left[-1]):
            said = pair_said(names[source], names[target], -value, left.pop()[2])
        else:
            said = one_said(names[source], names[target], value)
        lines.append(said + label_said(label))
    return "".join(f"{line}\n" for line in lines).encode()


def main(words: list[str]) -> int:
    command, path, *more = words
    deadline = int(more[1]) if more else None
    with open(path, "rb") as file:
        data = file.read()
    try:
        wrote = as_document(plan(data, deadline)) if command == "plan" else sentences(of_document(data, deadline))
    except Refused as why:
        wrote = f"plan {why}\n".encode()
    sys.stdout.buffer.write(wrote)
    return 3 if wrote.startswith(b"plan ") else 0


if __name__ == "__main__":
    sys.exit(main(sys.argv[1:]))
