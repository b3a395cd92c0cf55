"""Questions to a session by how much something has to give way, each with the answer as a type.

Where the program's cap leaves an answer unknown it is a `Verdict`.
"""
from __future__ import annotations

from collections.abc import Iterator

from cstn.answers import Answer, Blame, Delay, Done, Idle, Least, Raised, Refusal, Verdict
from cstn.child import Child
from cstn.names import printed
from cstn.outlook import Late, WayOut
from cstn.refusals import MOST
from cstn.state import State


def until(child: Child) -> Idle | Done | Refusal | Verdict:
    """Until when nothing at all may happen."""
    answer = child.ask("until")
    return answer if isinstance(answer, Idle | Done) else no_number(answer)


def give_way(child: Child, state: State, number: int) -> WayOut | Refusal | Verdict:
    """By how much a limit has to give way after a "no"."""
    answer = child.ask(f"raise {number}")
    if not isinstance(answer, Raised):
        return no_number(answer)
    limit, own = state.limits[number], {each.id for each in state.plan.limits}
    return WayOut(limit, None, limit.most, answer.most, number not in own)


def least_deadline(child: Child) -> Least | Refusal | Verdict:
    """The least deadline by which what is left can be carried out."""
    answer = child.ask("least")
    return answer if isinstance(answer, Least) else no_number(answer)


def late(child: Child, state: State, letter: str) -> Late | Refusal | Verdict:
    """Until when an awaited outcome may be late."""
    answer = child.ask(f"late {printed(letter)}")
    if not isinstance(answer, Delay):
        return no_number(answer)
    is_ever = answer.at == MOST > state.deadline
    return Late(letter, None if is_ever else answer.at, is_ever)


def no_number(answer: Answer) -> Refusal | Verdict:
    assert isinstance(answer, Refusal | Verdict)
    return answer


def ways_out(child: Child, state: State) -> Iterator[WayOut]:
    """For each blamed limit, the deadline and each outcome that is awaited later than now the number that would do, if
    all else stays. What the cap leaves unknown is left out."""
    blamed = child.ask("blame")
    for number in blamed.ids if isinstance(blamed, Blame) else ():
        if isinstance(way := give_way(child, state, number), WayOut):
            yield way
    if isinstance(least := least_deadline(child), Least):
        yield WayOut(None, None, state.deadline, least.deadline)
    for letter, expected in state.awaited().items():
        if expected > state.now and isinstance(found := late(child, state, letter), Late):
            yield WayOut(None, letter, expected, found.until)
