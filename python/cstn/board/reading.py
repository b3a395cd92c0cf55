"""What a browser sends, read with checks: nothing of it is taken as it stands."""
from __future__ import annotations

import re
from collections.abc import Mapping, Sequence
from typing import Any

from cstn.events import Add, AddStep, Change, Deadline, Did, Event, Expect, Forgive, NotBefore, Now, Saw
from cstn.outlook import Outlook
from cstn.plan import Limit, Plan, Step
from cstn.refusals import MOST

from cstn.board.words import is_least

MOST_VALUE = 1_000_000_000
LONGEST_NAME = 80
KEY = re.compile(r"[0-9A-Za-z_-]{8,64}")


class Wrong(ValueError):
    """What was sent means nothing. The words are for whoever sent it."""


def number(data: Mapping[str, Any], name: str, least: int, most: int) -> int:
    value = data.get(name)
    if not isinstance(value, int) or isinstance(value, bool):
        raise Wrong(f"no number: {name}")
    if not least <= value <= most:
        raise Wrong(f"{value} is not between {least} and {most}")
    return value


def truth(data: Mapping[str, Any], name: str) -> bool:
    value = data.get(name)
    if not isinstance(value, bool):
        raise Wrong(f"neither true nor false: {name}")
    return value


def step_of(data: Mapping[str, Any], name: str, steps: Sequence[Step]) -> str:
    """A step is named by its place, so that no name has to be understood on its way."""
    return steps[number(data, name, 0, len(steps) - 1)].name


def new_name(data: Mapping[str, Any]) -> str:
    """The name of a further step, without blanks around it."""
    name = data.get("name")
    if not isinstance(name, str) or not 0 < len(name.strip()) <= LONGEST_NAME or not name.strip().isprintable():
        raise Wrong(f"a step has a name of 1 to {LONGEST_NAME} letters")
    return name.strip()


def letter_of(data: Mapping[str, Any], plan: Plan) -> str:
    letter = data.get("letter")
    if not isinstance(letter, str) or letter not in plan.observers:
        raise Wrong("the plan observes no such result")
    return letter


def limit_of(data: Mapping[str, Any], limits: Mapping[int, Limit]) -> Limit:
    limit = limits.get(number(data, "limit", 0, 2**32 - 1))
    if limit is None:
        raise Wrong("the plan has no such limit, or it was removed")
    return limit


def added(data: Mapping[str, Any], steps: Sequence[Step]) -> Add:
    step, from_, value = step_of(data, "step", steps), step_of(data, "from", steps), number(data, "value", 0, MOST)
    match data.get("bound"):
        case "least":
            return Add(step, from_, -value)
        case "most":
            return Add(from_, step, value)
    raise Wrong("a limit is an at least or an at most")


def key_of(data: Mapping[str, Any]) -> str:
    key = data.get("key")
    if not isinstance(key, str) or KEY.fullmatch(key) is None:
        raise Wrong("an event has a key of 8 to 64 letters and digits")
    return key


def event_of(data: Mapping[str, Any], plan: Plan, outlook: Outlook) -> Event:
    """The event that data of JSON say of a plan as it stands. Raises `Wrong`."""
    steps, limits = plan.steps_with(outlook.further), outlook.limits
    match data.get("kind"):
        case "did":
            return Did(step_of(data, "step", steps), number(data, "at", 0, MOST))
        case "not_before":
            return NotBefore(step_of(data, "step", steps), number(data, "at", 0, MOST))
        case "step":
            return AddStep(new_name(data))
        case "saw":
            return Saw(letter_of(data, plan), truth(data, "value"), number(data, "at", 0, MOST))
        case "await":
            return Expect(letter_of(data, plan), number(data, "at", 0, MOST))
        case "now":
            return Now(number(data, "at", 0, MOST))
        case "deadline":
            return Deadline(number(data, "at", 0, MOST))
        case "forgive":
            return Forgive()
        case "remove":
            return Change(limit_of(data, limits).id, None)
        case "change":
            limit, value = limit_of(data, limits), number(data, "value", -MOST_VALUE, MOST_VALUE)
            return Change(limit.id, -value if is_least(limit) else value)
        case "add":
            return added(data, steps)
    raise Wrong("no such kind of event")
