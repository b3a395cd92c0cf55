"""Answers of `follow` in words that say how it stands: verdicts, edits, marks, and how a session ends."""
from __future__ import annotations

import re
from typing import TYPE_CHECKING

from .networks import Network, constraint
from .shapes import Data
from .spoken import Spoken

if TYPE_CHECKING:
    from .following import Heard

BRIEF = re.compile(r"(?P<what>yes|no|full|added|changed|removed|deadline|mark|back|unfinished|wide) (?P<number>\d{1,10})|"
                   r"digest (?P<digest>[0-9a-f]{64})")
EDITS = ("added", "changed", "removed")
VERDICT = re.compile(r"(yes|no|full) \d{1,10}")
VERDICTS = {"yes": "Yes: what is left can be carried out.", "no": "No: what is left cannot be carried out.",
            "full": "Whether what is left can be carried out is not known: a check would take more than {} bounds."}
IF_TOLD = {"yes": "If that were told, what is left could be carried out.",
           "no": "If that were told, what is left could not be carried out.",
           "full": "What would be left is not known: a check would take more than {} bounds."}


def is_brief(text: str) -> bool:
    """Whether a text is one such answer."""
    return bool(BRIEF.fullmatch(text))


def is_asked(line: str) -> bool:
    """Whether a typed line asks for the verdict, or is answered by it for want of another answer."""
    return bool(line) and not re.match("(did|saw|now|await|expect) ", line)


def tell_brief(net: Network, line: str, answer: str, heard: Heard) -> Data | None:
    """An answer to a typed line, or to one that is not known (then `line` is empty), as data and in words. Of what was
    told the line is the last."""
    found = BRIEF.fullmatch(answer)
    if not found:
        return None
    if found["digest"]:
        says = "It is the SHA-256 of the canonical document of the plan as edited."
        return {"answer": "digest", "sha256": found["digest"], "says": [says]}
    what, number = found["what"], int(found["number"])
    words = in_words(net, what, number, line.startswith("try "), heard)
    return {"answer": what, "number": number, "says": [words] if isinstance(words, str) else words}


def in_words(net: Network, what: str, number: int, is_tried: bool, heard: Heard) -> str | list[str]:
    if what in VERDICTS:
        return (IF_TOLD if is_tried else VERDICTS)[what].format(number)
    if what in EDITS:
        return edited(net, what, number, heard)
    if what == "deadline":
        return f"The deadline is {Spoken.moment(number)}."
    if what == "unfinished":
        return f"Not all is done, and it is {Spoken.moment(number)}."
    if what == "wide":
        return f"There are too many cases to tell: {number} outcomes may be observed."
    if what == "mark":
        return f"A mark is set, to which `back` leads back: {of_marks(number)}."
    return f"It is as it was at the last mark: {of_marks(number)}."


def of_marks(number: int) -> str:
    return {0: "none is set now", 1: "one is set now"}.get(number, f"{number} are set now")


def edited(net: Network, what: str, number: int, heard: Heard) -> list[str]:
    """What a limit says that was put in, changed, or taken out, with its line."""
    limit = heard.limit(net, number)
    name = net.called(number) if number < len(net.constraints) else str(number)
    if not limit:
        return [f"{what} {name}: a limit that FILE lacks, so an edit has added it"]
    if what == "changed" and number not in heard.values:
        return [f"{what} {name}: in FILE it is {constraint(*limit)}"]
    says, own = [f"{what} {name}: {constraint(*limit)}"], heard.added.get(number)
    own = net.constraints[number] if number < len(net.constraints) else own
    if what != "removed" and own and own[2] < 0 < limit[2]:
        says.append(f"It was: {constraint(*own)}. To change only its number, type it with a -: "
                    f"`change {number} -{limit[2]}`.")
    return says
