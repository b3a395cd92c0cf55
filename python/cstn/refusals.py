"""Why the program refuses a line, as the error that its event raises."""
from __future__ import annotations

import difflib
import re

from cstn.answers import Refusal
from cstn.errors import Contradicts, NotYet, OutOfRange, Refused, TooMany, Unknown, WaitsFor
from cstn.events import Add, AddStep, Change, Deadline, Did, Event, Expect, NotBefore, Now, Saw
from cstn.names import plain
from cstn.state import State

MOST = 1000000
"""The greatest moment that a fact may have."""
MOST_OF_A_LIMIT = 1000000000
NO_VALUE = f"{{}} is no value of a limit: these are from -{MOST_OF_A_LIMIT} to {MOST_OF_A_LIMIT}"


def why(refusal: Refusal, event: Event, state: State) -> Refused | None:
    """The error of a refused event; nothing where it was told before, or is an older time than the plan's."""
    match refusal.code, event:
        case "F1", _:
            return None
        case "F2", _:
            return moment(event, state)
        case "F3" | "S7", _:
            return no_step(refusal.code, plain(refusal.words[0]), state)
        case "F4", Did(step, at):
            return None if state.done[step] == at else done_before(step, state)
        case "F4", NotBefore(step) | AddStep(step):
            return done_before(step, state)
        case "F5", Did(step) | NotBefore(step):
            return undecided(step, state)
        case "F6", Saw(letter) | Expect(letter):
            return unobserved(letter, state)
        case "F7", Saw(letter, value, at):
            known = state.seen[letter]
            return None if (known.value, known.at) == (value, at) else seen_before(letter, state)
        case "F7", _:
            return None
        case "F8" | "S1" | "S6" | "S9", _:
            return TooMany(refusal.code, "the plan has no room for this")
        case "S2", _:
            return no_limit(refusal.words[0])
        case "S3", _:
            return OutOfRange("S3", NO_VALUE.format(refusal.words[0]))
        case "S8", AddStep(step):
            return Contradicts("S8", f"there is a step {step} already")
        case "S5", _:
            return Unknown("S5", f"nothing observes {refusal.words[0]}", refusal.words[0])
    return Refused(refusal.code, unsayable(event, state))


def no_limit(number: str) -> Unknown:
    return Unknown("S2", f"no limit has the id {number}", number)


def unsayable(event: Event, state: State) -> str:
    """Why no line can say an event, as far as that is known."""
    match event:
        case Saw(letter) | Expect(letter) if not re.fullmatch("[A-Za-z]", letter):
            meant = [it for it, word in state.plan.words.items() if word == letter]
            return f"a letter is one of A to Z, a to z: {letter!r}" + (f" is the word for {meant[0]}" if meant else "")
        case (Add(most=most) | Change(most=most)) if most is not None and abs(most) > MOST_OF_A_LIMIT:
            return NO_VALUE.format(most)
        case Deadline(at):
            return f"a deadline is at most {MOST}, and not {at}"
    return f"no line can say this: {event!r}"


def no_step(code: str, name: str, state: State) -> Unknown:
    """Of a name that no step has, with the step whose name is most like it."""
    folded = {step.casefold(): step for step in (*(it.name for it in state.plan.steps), *state.further)}
    near = difflib.get_close_matches(name.casefold(), folded, 1)
    return Unknown(code, f"no step is named {name!r}" + (f", but one {folded[near[0]]!r}" if near else ""), name)


def moment(event: Event, state: State) -> Refused:
    """Of a moment that is too great, or of an outcome that came before its observer was done."""
    match event:
        case Saw(letter, _, int(at)) if at <= MOST:
            step = state.plan.observers[letter].name
            done = state.done[step]
            says = f"{state.outcome(letter)} came at {state.time(at)}, and {step} was done only at {state.time(done)}"
            return Contradicts("F2", says, done)
        case Expect(letter, int(at)):
            says = f"{state.outcome(letter)} cannot be expected at {state.time(at)}, when it is {state.time(state.now)}"
            return OutOfRange("F2", says)
        case Did() | Saw() | Now() | NotBefore():
            return OutOfRange("F2", f"{event.at} is above {MOST}")
    return OutOfRange("F2", f"no moment of a plan: {event!r}")


def done_before(step: str, state: State) -> Contradicts:
    return Contradicts("F4", f"{step} was done at {state.time(state.done[step])}", state.done[step])


def seen_before(letter: str, state: State) -> Contradicts:
    known = state.seen[letter]
    says = f"{state.outcome(letter)} came at {state.time(known.at)}, and was {str(known.value).lower()}"
    return Contradicts("F7", says, known.value)


def undecided(step: str, state: State) -> Refused:
    """Of a step whose label does not hold: it is ruled out, or some outcomes are missing."""
    if state.is_left_out(step):
        return Contradicts("F5", f"what was seen rules {step} out")
    letters = tuple(letter for letter in state.plan.letters_of(step) if letter not in state.seen)
    outcomes = ", ".join(map(state.outcome, letters))
    return NotYet("F5", f"{step} waits for the outcome of {outcomes}", WaitsFor(letters=letters))


def unobserved(letter: str, state: State) -> Refused:
    """Of an outcome whose observer was not done: nothing observes it, or that was ruled out, or is not told yet."""
    observer = state.plan.observers.get(letter)
    if observer is None:
        return Unknown("F6", f"nothing observes {letter}", letter)
    if state.is_left_out(observer.name):
        says = f"what was seen rules {observer.name} out, which observes {state.outcome(letter)}"
        return Contradicts("F6", says)
    says = f"{state.outcome(letter)} waits for {observer.name} to be done"
    return NotYet("F6", says, WaitsFor(steps=(observer.name,)))
