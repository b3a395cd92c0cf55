"""What a page shows of names, labels, limits and events. A page gets texts and names, and never markup."""
from __future__ import annotations

import re
from collections.abc import Mapping, Sequence
from typing import Any

from cstn.events import Add, AddStep, Change, Deadline, Did, Event, Expect, Forgive, NotBefore, Now, Saw
from cstn.names import Label
from cstn.plan import Limit

OBEYED = re.compile("[\x00-\x1f\x7f-\x9f\u061c\u200e\u200f\u2028-\u202e\u2066-\u2069]")
"""What a screen obeys, at which it ends a line, or by which it turns writing round."""

Words = Mapping[str, str]
NO_WORDS: Words = {}
Part = dict[str, Any]
"""A part of a sentence: a text, a name, or a number that is a moment or a length."""


def shown(text: str) -> str:
    """A text of others as a screen may have it."""
    return OBEYED.sub(lambda found: "".join(f"%{byte:02X}" for byte in found[0].encode()), text)


def spoken(letter: str, words: Words) -> str:
    """A letter, behind its word if it has one."""
    return f"{words[letter]} ({letter})" if letter in words else letter


def named(label: Label, words: Words = NO_WORDS) -> str:
    """A label in words: `infection and not o`; nothing for the empty one."""
    return " and ".join(("" if value else "not ") + words.get(letter, letter) for letter, value in label.items())


def is_least(limit: Limit) -> bool:
    """Whether a limit is an "at least": its number is then shown without its sign."""
    return limit.most < 0 or limit.most == 0 and limit.source != "Z"


def number_of(limit: Limit, most: int, least: bool) -> int:
    """The number that a person reads in a limit."""
    return -most if least else most


def limit_parts(limit: Limit, least: bool, most: int, words: Words = NO_WORDS) -> list[Part]:
    """A limit as a sentence, whose number is `most`."""
    number = number_of(limit, most, least)
    later, earlier = (limit.source, limit.target) if least else (limit.target, limit.source)
    if earlier == "Z":
        parts: list[Part] = [{"name": shown(later)}, {"text": " at "}, {"moment": number},
                             {"text": " or later" if least else " or earlier"}]
    elif least and number == 0:
        parts = [{"name": shown(later)}, {"text": " not before "}, {"name": shown(earlier)}]
    else:
        parts = [{"name": shown(later)}, {"text": " at least " if least else " at most "}, {"length": number},
                 {"text": " after "}, {"name": shown(earlier)}]
    return [*parts, {"text": f", if {named(limit.label, words)}"}] if limit.label else parts


def told(event: Event, limits: Mapping[int, Limit], words: Words = NO_WORDS) -> list[Part]:
    """An event as a sentence without its moment."""
    match event:
        case Did(step):
            return [{"name": shown(step)}, {"text": " done"}]
        case Saw(letter, value):
            return [{"name": spoken(letter, words)}, {"text": f" is {'true' if value else 'false'}"}]
        case Expect(letter, int(at)):
            return [{"name": spoken(letter, words)}, {"text": " expected at "}, {"moment": at}]
        case Now(int(at)):
            return [{"text": "it is "}, {"moment": at}]
        case Deadline(int(at)):
            return [{"text": "deadline "}, {"moment": at}]
        case Add(source, target, most, label):
            limit = Limit(0, source, target, most, label)
            return [{"text": "put in: "}, *limit_parts(limit, is_least(limit), most, words)]
        case Change(number, most):
            return changed(limits.get(number), number, most, words)
        case NotBefore(step, 0):
            return [{"name": shown(step)}, {"text": " can be done as soon as the rest allows"}]
        case NotBefore(step, int(at)):
            return [{"name": shown(step)}, {"text": " not before "}, {"moment": at}]
        case AddStep(step):
            return [{"text": "put in: step "}, {"name": shown(step)}]
        case Forgive():
            return [{"text": "what is broken is given up"}]
    return [{"text": shown(str(event))}]


def forgiven(ids: Sequence[int], limits: Mapping[int, Limit], words: Words = NO_WORDS) -> list[Part]:
    """What was given up since it was broken, as a sentence."""
    parts: list[Part] = [{"text": "given up, since broken: "}] if ids else [{"text": "nothing was broken"}]
    for place, number in enumerate(ids):
        limit = limits.get(number)
        said = limit_parts(limit, is_least(limit), limit.most, words) if limit else [{"text": f"limit {number}"}]
        parts += [*([{"text": "; "}] if place else []), *said]
    return parts


def changed(limit: Limit | None, number: int, most: int | None, words: Words) -> list[Part]:
    if limit is None:
        return [{"text": f"limit {number} {'removed' if most is None else f'changed to {most}'}"}]
    least = is_least(limit)
    if most is None:
        return [{"text": "removed: "}, *limit_parts(limit, least, limit.most, words)]
    return [{"text": "changed: "}, *limit_parts(limit, least, most, words)]
