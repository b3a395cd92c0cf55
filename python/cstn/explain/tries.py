"""A session of `follow` told again, to try which other value of a limit, or which earlier moment of an outcome, would
do."""
import re
import subprocess
from collections.abc import Callable, Iterator
from typing import NamedTuple, Self

from .following import Heard
from .shapes import Data
from .spoken import Spoken

MOST_LIMITS = 12
CHECKS_OF_A_LIMIT = 23
GREATEST = 1000001
"""A limit of this value limits nothing."""


class Live:
    """A session that was told the lines of another, and can be told more."""

    def __init__(self, words: list[str], lines: list[str], now: int) -> None:
        self.child = subprocess.Popen(words, stdin=subprocess.PIPE, stdout=subprocess.PIPE, stderr=subprocess.DEVNULL)
        assert self.child.stdin and self.child.stdout
        self.typed, self.answers, self.now = self.child.stdin, self.child.stdout, now
        self.begun = [self.read(), self.read()]
        for line in lines:
            self.say(line)

    def __enter__(self) -> Self:
        return self

    def __exit__(self, *_: object) -> None:
        if self.child.returncode is None:
            self.child.communicate()

    def read(self) -> str:
        return self.answers.readline().decode().rstrip("\n")

    def end(self) -> str:
        """Ends the session; its last line."""
        return self.child.communicate()[0].decode(errors="replace").rstrip("\n")

    def say(self, line: str) -> str:
        """What is answered to a line that has one line as its answer; nothing where the session is over."""
        try:
            self.typed.write(f"{line}\n".encode())
            self.typed.flush()
        except BrokenPipeError:
            return ""
        return self.read()

    def is_met(self, line: str) -> bool | None:
        """Whether a yes stands after a line, or none where that is not known."""
        said = self.say(line)
        if re.match(r"changed \d", said):
            said = self.say(f"now {self.now}")
        return {"yes": True, "no": False}.get(said.split(" ")[0])


def nearest(met: Callable[[int], bool | None], fails: int, holds: int) -> tuple[int, bool]:
    """Between a value that does not do and one that does, the nearest to the first that does, and whether that is sure:
    it is not where an answer is missing, since then a nearer one may do."""
    is_sure = True
    while abs(holds - fails) > 1:
        middle = (fails + holds) // 2
        said = met(middle)
        is_sure = is_sure and said is not None
        fails, holds = (fails, middle) if said else (middle, holds)
    return holds, is_sure


class Least(NamedTuple):
    """The least value of a limit that does, or none; whether a yes stands with the greatest value that was tried, or
    none where that is not known; whether it took a later deadline; and whether it is sure that no lesser one does.

    The value of an "at least" is below 0, and the greatest that is tried is 0.
    """

    number: int
    value: int
    least: int | None
    said: bool | None
    is_later: bool = False
    is_sure: bool = True

    def words(self, is_moment: bool) -> tuple[str, str]:
        """The least value and the one it has, without signs: as moments where the limit counts from the start."""
        least, own = abs(self.least or 0), abs(self.value)
        return (Spoken.moment(least), Spoken.moment(own)) if is_moment else (str(least), str(own))

    def data(self) -> Data:
        """The limit as data."""
        return {"constraint": self.number, "at_most": self.value, "least": self.least, "sure": self.is_sure}


def in_turn(values: dict[int, int]) -> list[int]:
    """The limits of a value other than 0, those above 0 first."""
    return sorted((number for number, value in values.items() if value), key=lambda it: values[it] < 0)


def untried(values: dict[int, int]) -> list[str]:
    """The limits behind the twelve that are tried, in words."""
    left = sorted(in_turn(values)[MOST_LIMITS:])
    return [f"{len(left)} more not tried: {', '.join(map(str, left))}"] if left else []


def least_values(live: Live, values: dict[int, int], deadline: int, later: int | None) -> Iterator[Least]:
    """For each limit of a value other than 0, those above 0 first and twelve at most, the least value with which a
    yes stands if all else stays. Where there is none up to the deadline, and a later one is named, it is tried with
    that."""
    for number in in_turn(values)[:MOST_LIMITS]:
        value = values[number]
        found = least_value(live, number, value, deadline if value > 0 else 0)
        if later is not None and found.least is None and found.said is False and value > 0:
            live.say(f"deadline {later}")
            again = least_value(live, number, value, later)
            live.say(f"deadline {deadline}")
            found = again._replace(is_later=True) if again.least is not None else found
        yield found


def least_value(live: Live, number: int, value: int, greatest: int) -> Least:
    """The least value of a limit, up to the greatest; the limit has its own value again afterwards."""
    def met(tried: int) -> bool | None:
        return live.is_met(f"change {number} {tried}")

    said = met(greatest) if greatest > value else False
    least, is_sure = nearest(met, value, greatest) if said else (None, True)
    live.say(f"change {number} {value}")
    return Least(number, value, least, said, is_sure=is_sure)


def instead(found: Least, deadline: int, is_moment: bool) -> str:
    """The least value of a limit that would do, in words; a moment where the limit counts from the start."""
    if found.value < 0:
        return instead_at_least(found, is_moment)
    least, own = found.words(is_moment)
    if found.least is not None:
        says = f"{least} in place of {own}{', with a later deadline' if found.is_later else ''}"
        return says if found.is_sure else f"{says}; whether a little less would do is not known"
    if found.value >= deadline:
        return f"not tried, since the deadline, {Spoken.moment(deadline)}, limits as much: say a later one by " \
            "`--deadline N`"
    if found.said is False:
        return f"none up to the deadline, {Spoken.moment(deadline)}: without this limit there is still a no, for " \
            "another reason"
    return "not known, since a check could not be ended"


def instead_at_least(found: Least, is_moment: bool) -> str:
    """How much of an "at least" would do, in words."""
    least, own = found.words(is_moment)
    if found.least is not None:
        says = f"at least {least} in place of {own}"
        return says if found.is_sure else f"{says}; whether a little more would do is not known"
    if found.said is False:
        return "no lower value would do"
    return "not known, since a check could not be ended"


def giving_way(live: Live, values: dict[int, int], deadline: int, later: int | None,
               moments: set[int]) -> tuple[list[Data], list[str], int | None]:
    """How far each limit would have to give way, as data and in words; `moments` are those that count from the start.
    Behind them the first limit without which there is still a no, or none."""
    found, lines, vain = [], [], None
    for it in least_values(live, values, deadline, later):
        found.append(it.data())
        vain = it.number if vain is None and it.said is False and it.least is None and it.value > 0 else vain
        stays = ", if all else stays" if it.least is not None else ""
        to_type = f": `change {it.number} {it.least}`" if it.least is not None and not it.is_later else ""
        lines.append(f"{it.number}: {instead(it, deadline, it.number in moments)}{stays}{to_type}")
    return found, lines + untried(values), vain


def blamed_without(live: Live, number: int, value: int) -> list[int]:
    """What is to blame if a limit limits nothing; it has its own value again afterwards."""
    live.say(f"change {number} {GREATEST}")
    said = re.fullmatch(r"blame((?: \d+)+)", live.say("blame"))
    live.say(f"change {number} {value}")
    return [int(it) for it in said[1].split()] if said else []


def awaiting(live: Live, heard: Heard) -> tuple[list[Data], list[str]]:
    """For each outcome that is awaited later than now, the latest moment before that with which a yes stands, as data
    and in words."""
    found, lines = [], []
    for letter, moment in heard.awaited.items():
        if letter in heard.known or moment <= heard.now:
            continue

        def met(tried: int, letter: str = letter) -> bool | None:
            return live.is_met(f"await {tried} {letter}")

        first = next((it for it in (heard.now, heard.now + 1) if it < moment and met(it)), None)
        latest = nearest(met, moment, first)[0] if first is not None else None
        live.say(f"await {moment} {letter}")
        if latest is not None:
            found.append({"letter": letter, "awaited": moment, "latest": latest})
            instead_of, then = (Spoken.awaited(it, letter, heard.now) for it in (moment, latest))
            lines.append(f"or `{then}` in place of `{instead_of}`, if {Spoken.letter(letter)} will be known by then")
    return found, lines
