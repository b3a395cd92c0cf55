"""The way ahead: a plan played on by a process of its own, for one case of the results that are awaited."""
from __future__ import annotations

from collections.abc import Mapping
from dataclasses import dataclass, field

from cstn.answers import Next
from cstn.child import Child
from cstn.names import printed


@dataclass
class Ahead:
    """When each step is planned and each result expected, if the results are as supposed. Moments are ticks."""

    steps: dict[str, int] = field(default_factory=dict)
    results: dict[str, int] = field(default_factory=dict)
    supposed: dict[str, bool] = field(default_factory=dict)


def play(child: Child, chosen: Mapping[str, bool], most: int) -> Ahead:
    """Plays a plan to its end, in at most `most` moments, and tells the child each. A result that `chosen` does not
    name is taken to be true."""
    ahead = Ahead()
    for _ in range(most):
        answer = child.ask("next")
        if not isinstance(answer, Next):
            break
        for step in answer.do:
            if not child.tells(f"did {answer.at} {printed(step)}"):
                return ahead
            ahead.steps[step] = answer.at
        for letter in answer.wait:
            value = ahead.supposed[letter] = chosen.get(letter, True)
            ahead.results[letter] = answer.at
            if not child.tells(f"saw {answer.at} {letter} {'true' if value else 'false'}"):
                return ahead
    return ahead


def overdue(child: Child, now: int, most: int) -> dict[str, int]:
    """The steps that the plan wanted before now, each with the moment at which it did. It goes as far as no result is
    awaited. The child was told facts and edits, and no time that has passed since."""
    found: dict[str, int] = {}
    for _ in range(most):
        answer = child.ask("next")
        if not isinstance(answer, Next) or answer.at >= now:
            break
        if not answer.do:
            break
        for step in answer.do:
            if not child.tells(f"did {answer.at} {printed(step)}"):
                return found
            found[step] = answer.at
    return found
