"""What the program answers, as types."""
from __future__ import annotations

import re
from dataclasses import dataclass
from enum import Enum

from cstn.names import plain


class Can(Enum):
    """Whether what is left can be carried out, whatever is observed from now on."""

    YES = "yes"
    NO = "no"
    UNKNOWN = "full"


@dataclass(frozen=True)
class Verdict:
    """A verdict, with the number of bounds that were derived, if that was told; of an unknown one, with the cap that
    did not do."""

    can: Can
    bounds: int | None = None

    @property
    def is_yes(self) -> bool:
        return self.can is Can.YES

    def __str__(self) -> str:
        return self.can.name.lower()


@dataclass(frozen=True)
class Next:
    """What is next: at the tick `at` the steps `do` are to be done, and the outcomes of the letters `wait` awaited."""

    at: int
    do: tuple[str, ...] = ()
    wait: tuple[str, ...] = ()

    def __str__(self) -> str:
        do = ["do " + ", ".join(self.do)] if self.do else []
        return f"at {self.at} " + " and ".join(do + (["wait for " + ", ".join(self.wait)] if self.wait else []))


@dataclass(frozen=True)
class Done:
    """Nothing is left."""

    def __str__(self) -> str:
        return "done"


@dataclass(frozen=True)
class Until:
    """A step can wait until this tick, and no longer. One at a time: such moments do not add up."""

    step: str
    at: int


@dataclass(frozen=True)
class Idle:
    """With nothing at all told, what is left can be carried out until this tick, and no longer."""

    at: int


@dataclass(frozen=True)
class Delay:
    """The outcome of a letter may be as late as this tick, and no later; with None it is too late at any moment."""

    letter: str
    at: int | None


@dataclass(frozen=True)
class Raised:
    """The least value of a limit, above its own, with which what is left can be carried out; None where none does."""

    id: int
    most: int | None


@dataclass(frozen=True)
class Least:
    """The least deadline by which what is left can be carried out; None where none does."""

    deadline: int | None


@dataclass(frozen=True)
class Blame:
    """The ids of limits that cannot be met together; with any one of them less the others can."""

    ids: tuple[int, ...]


@dataclass(frozen=True)
class Edited:
    """An edit was taken; `number` is the id of its limit, or the deadline."""

    number: int


@dataclass(frozen=True)
class Forgiven:
    """What was broken is forgiven: the ids of the limits that were taken out."""

    ids: tuple[int, ...]


@dataclass(frozen=True)
class Stepped:
    """A step was put in."""

    step: str


@dataclass(frozen=True)
class Digest:
    """The SHA-256 of the canonical document of the plan as edited."""

    sha256: str


@dataclass(frozen=True)
class Wide:
    """There are more ways to go on than are told: of so many observed letters."""

    letters: int


@dataclass(frozen=True)
class Marks:
    """So many marks are set now."""

    count: int


@dataclass(frozen=True)
class Refusal:
    """A line was refused: its code, and the words behind it."""

    code: str
    words: tuple[str, ...]


Answer = (Verdict | Next | Done | Until | Idle | Delay | Raised | Least | Blame | Edited | Forgiven | Stepped | Digest |
          Wide | Marks | Refusal)
EDITS = {"add": "added", "remove": "removed", "change": "changed", "deadline": "deadline"}
"""The first word of an edit, and the first word of its answer."""
NO_VERDICT = (*EDITS, "forgive", "step", "digest", "mark", "back")
"""Lines that are never answered by a verdict."""

REFUSED = re.compile(r"refused (F[1-8]|S[1-9]|M[12]|line)((?: [^ ]+)*)")
NEXT = re.compile(r"next (\d+)(?: do (.+?))?(?: wait ([A-Za-z]+))?")
SHAPES = {
    "by": r"by (\d+) {}", "until": r"until (\d+)", "late": r"late (\d+|none) {}", "raise": r"raise {} (-?\d+|none)",
    "least": r"least (\d+|none)", "blame": r"blame((?: \d+)*)", "forgive": r"forgiven((?: \d+)*)",
    "step": r"step ({})", "digest": r"digest ([0-9a-f]{{64}})", "cases": r"wide (\d+)", "mark": r"mark (\d)",
    "back": r"back (\d)"}
"""The answer to a line of a verb, with its number or its ids; `{}` is what stands in the line behind the verb."""


def is_taken(answer: Answer) -> bool:
    """Whether an answer says that a fact or an edit was recorded."""
    return isinstance(answer, Verdict | Edited | Forgiven | Stepped)


def parse(line: str, text: str) -> Answer:
    """The answer to a line. Raises `ValueError` where the text is none that belongs to it.

    A step may be named `wait`: of two readings of `next` the one with awaited letters is taken.
    """
    verb, *rest = line.split(" ")
    words = text.split(" ")
    if (found := REFUSED.fullmatch(text)) is not None:
        return Refusal(found[1], tuple(found[2].split(" ")[1:]))
    if verb not in NO_VERDICT and words[0] in ("yes", "no", "full") and len(words) == 2 and words[1].isdigit():
        return Verdict(Can(words[0]), int(words[1]))
    if verb in ("next", "until") and text == "done":
        return Done()
    if verb == "next" and (found := NEXT.fullmatch(text)):
        names = found[2].split(" ") if found[2] else []
        return Next(int(found[1]), tuple(plain(name) for name in names), tuple(found[3] or ""))
    if verb in EDITS and words[0] == EDITS[verb] and len(words) == 2 and words[1].isdigit():
        return Edited(int(words[1]))
    shape = SHAPES.get(verb, "(?!)").format(re.escape(" ".join(rest)))
    if (found := re.fullmatch(shape, text)) is not None:
        return told(verb, rest, found[1])
    raise ValueError(f"{line[:200]!r} was answered {text[:200]!r}")


def told(verb: str, rest: list[str], said: str) -> Answer:
    """The answer to a line of a verb that has a number, `none`, or ids."""
    if verb == "step":
        return Stepped(plain(said))
    if verb == "digest":
        return Digest(said)
    ids = tuple(int(it) for it in said.split()) if said != "none" else ()
    number = ids[0] if ids else None
    match verb:
        case "blame":
            return Blame(ids)
        case "forgive":
            return Forgiven(ids)
        case "late":
            return Delay(rest[0], number)
        case "raise":
            return Raised(int(rest[0]), number)
        case "least":
            return Least(number)
    assert number is not None
    if verb == "by":
        return Until(plain(rest[0]), number)
    return Idle(number) if verb == "until" else Wide(number) if verb == "cases" else Marks(number)
