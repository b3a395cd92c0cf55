"""Lines of `follow` as people type them: with times of the clock, words for letters, names in quotes, and limits by
their lines."""
import re
from collections.abc import Callable, Collection, Sequence

from ..said import name_of
from .following import Heard
from .names import typed
from .networks import Network
from .spoken import DAY, Clock, Spoken

WORD = re.compile(r'"[^"]*"|[^ ]+')
CLOCK = re.compile(r"(\d{1,3}):([0-5]\d)")
SPAN = re.compile(r"(-?)(\d{1,3}):([0-5]\d)")
FACTS = ("did", "saw", "now", "await", "expect")
OF_LIMITS = ("change", "remove", "raise")
TO_COME = ("expect", "deadline")
OF_LETTERS = {"saw": 1, "await": 1, "late": 0}
"""The place of the letter behind the verb."""


def in_lines(line: str, now: int, clock: Clock, from_start: Collection[int] = (), rows: Sequence[int] = ()) -> str:
    """A line as `follow` takes it. A time of the clock is the one next to now, and for what is to come, as a limit that
    counts from the start, the next one; where there is no clock it counts from the start, in minutes. `rows` are the
    lines of the document on which limits stand. What can't be read so stays as it is."""
    verb, *words = WORD.findall(line) or [""]
    if verb == "try" and words:
        return f"try {in_lines(line.split(' ', 1)[1], now, clock, from_start, rows)}"
    if verb in OF_LIMITS:
        words = by_id(words, rows)
    if verb in (*FACTS, "deadline") and words:
        words[0] = moment_of(words[0], now, clock, verb in TO_COME)
    if verb == "change" and len(words) == 2:
        is_moment = words[0].isdecimal() and int(words[0]) in from_start
        words[1] = bound_of(words[1], now, clock) if is_moment else span_of(words[1])
    place = OF_LETTERS.get(verb)
    if place is not None and len(words) > place:
        words[place] = letter_of(words[place])
    if verb == "add" and len(words) >= 3:
        bound = bound_of(words[2], now, clock) if "Z" in words[:2] else span_of(words[2])
        words[2:] = [bound, label_of(words[3:])]
    return " ".join([verb, *(typed(name_of(it)) if it.startswith('"') else it for it in words)])


def all_in_lines(net: Network, lines: list[str], clock: Clock, say: Callable[[str], str]) -> list[tuple[str, str]]:
    """The lines of a session as `follow` takes them, each with its answer, which `say` asks for."""
    heard, found = Heard(), []
    for line in lines:
        taken = in_lines(line, heard.now, clock, heard.from_start(net), net.limit_rows())
        found.append((taken, say(taken)))
        heard.take(*found[-1])
    return found


def has_moments(lines: list[str]) -> bool:
    """Whether what some lines mean hangs on the limits that others put in: a limit is changed to a time."""
    return any(re.fullmatch(r"(?:try )?change \d+ -?\d{1,3}:[0-5]\d", line) for line in lines)


def by_id(words: list[str], rows: Sequence[int]) -> list[str]:
    """The words behind a verb with an id in place of `line N`, if one limit alone stands on that line."""
    if words[:1] != ["line"] or not words[1:2] or not words[1].isdecimal():
        return words
    ids = [number for number, row in enumerate(rows) if row == int(words[1])]
    return [str(ids[0]), *words[2:]] if len(ids) == 1 else words


def moment_of(word: str, now: int, clock: Clock, is_to_come: bool) -> str:
    """The tick of a time; a time before the start stays."""
    found = CLOCK.fullmatch(word)
    if not found:
        return word
    minutes = 60 * int(found[1]) + int(found[2])
    if clock.start is None:
        return str(minutes)
    day = max(1, DAY // clock.tick)
    first = ((60 * minutes - clock.start) % DAY) // clock.tick
    days = -((first - now) // day) if is_to_come else round((now - first) / day)
    return str(first + day * days) if first + day * days >= 0 else word


def bound_of(word: str, now: int, clock: Clock) -> str:
    """The ticks of a limit that counts from the start, from a time with its sign."""
    size = word.removeprefix("-")
    return word[: len(word) - len(size)] + moment_of(size, now, clock, True)


def span_of(word: str) -> str:
    """The ticks of a length in hours and minutes."""
    found = SPAN.fullmatch(word)
    return f"{found[1]}{60 * int(found[2]) + int(found[3])}" if found else word


def letter_of(word: str) -> str:
    """The letter that a word stands for; a letter, and a word for none, stay."""
    return next((letter for letter, it in Spoken.words.items() if it == word), word)


def label_of(words: list[str]) -> str:
    """A label in one word, from words with `and` and `not` between them; `-` for none."""
    label, sign = "", ""
    for word in words:
        if word == "not":
            sign = "!"
        elif word != "and":
            label, sign = label + sign + letter_of(word), ""
    return label or "-"
