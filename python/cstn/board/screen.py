"""All that the page of one plan shows, as data of JSON: reckoned in trials, so that looking changes nothing."""
from __future__ import annotations

import time
from collections.abc import Callable, Mapping, Sequence
from dataclasses import dataclass
from functools import partial
from typing import Any, TypeVar

from cstn.answers import Can, Done, Next
from cstn.child import Child
from cstn.errors import CstnError, OutOfTime, Unavailable
from cstn.events import Change, Did, Event, Expect, Forgive, NotBefore, Now, Saw
from cstn.follower import Follower, Trial, forgiven_by
from cstn.outlook import Late, Outlook, WayOut
from cstn.plan import Limit, Plan, Step
from cstn.refusals import MOST
from cstn.session import Telling

from cstn.board.ahead import Ahead, overdue, play
from cstn.board.words import Part, forgiven, is_least, limit_parts, named, number_of, shown, spoken, told

Data = dict[str, Any]
Found = TypeVar("Found")
SECONDS = 1.5
"""How long a look may take to find until when steps can wait: what it does not come to stands without."""


@dataclass(frozen=True)
class Forgiving:
    """Which limits what was done has broken, and how it stands without them."""

    ids: tuple[int, ...]
    can: Can


@dataclass(frozen=True)
class Look:
    """What a trial answered of a plan at one moment."""

    plan: Plan
    outlook: Outlook
    tellings: Sequence[Telling]
    ahead: Ahead
    latest: Mapping[str, int]
    due: Mapping[str, int]
    lates: Mapping[str, Late | None]
    ways: Sequence[WayOut] | None
    """None where they could not be found in time."""
    forgiving: Forgiving | None
    until: int | None
    """Until when nothing at all may happen."""
    meanwhile: Next | None
    let_go: Sequence[int]

    @property
    def steps(self) -> tuple[Step, ...]:
        return self.plan.steps_with(self.outlook.further)

    @property
    def places(self) -> dict[str, int]:
        return places(self.plan, self.outlook)


def look(follower: Follower, now: int | None, chosen: Mapping[str, bool], *, whole: bool) -> Look:
    """Looks at a plan, at `now` or as late as it was told. Not `whole`: what a list shows, and no more."""
    tellings = follower.history()
    with follower.what_if() as trial:
        if now is not None:
            trial.tell(Now(now))
        outlook = trial.outlook(latest=False)
        due = due_before(trial, outlook)
        if not whole:
            return Look(follower.plan, outlook, tellings, Ahead(), {}, due, {}, (), None, None, None, [])
        is_no = outlook.verdict.can is Can.NO
        ways = tried(trial.ways_out) if is_no else ()
        forgiving = tried(partial(forgive, trial)) if is_no else None
        until = tried(trial.until) if outlook.verdict.is_yes else None
        lates = {} if is_no else {it.letter: tried(partial(trial.late, it.letter)) for it in outlook.awaited}
        meanwhile, let_go = (tried(partial(let_all_go, trial)) if is_no else None) or (None, list[int]())
        ahead = way_ahead(trial, outlook, chosen)
        latest = {} if is_no else latest_of(trial, outlook, ahead)
    return Look(follower.plan, outlook, tellings, ahead, latest, due, lates, ways, forgiving, until,
                meanwhile, let_go)


def tried(question: Callable[[], Found]) -> Found | None:
    """What a question answers; nothing where that takes too long, or no process answers: the rest is shown without."""
    try:
        return question()
    except (OutOfTime, Unavailable):
        return None


def latest_of(trial: Trial, outlook: Outlook, ahead: Ahead) -> dict[str, int]:
    """Until when each step can wait: the next ones first, and as many as there is time for."""
    end, found = time.monotonic() + SECONDS, {}
    left = [it.name for it in trial.plan.steps_with(outlook.further)
            if it.name not in outlook.done and it.name not in outlook.left_out]
    for step in sorted(left, key=lambda it: ahead.steps.get(it, outlook.deadline)):
        if time.monotonic() > end:
            break
        if (at := tried(partial(trial.by, step))) is not None:
            found[step] = at
    return found


def forgive(trial: Trial) -> Forgiving | None:
    """What would be forgiven, and what that would leave; nothing where nothing is broken."""
    trial.mark()
    receipt = trial.forgive()
    trial.back()
    return Forgiving(receipt.forgiven, receipt.verdict.can) if receipt.forgiven else None


def let_all_go(trial: Trial) -> tuple[Next | None, list[int]]:
    """What would be next if all blamed limits were let go, and which those are."""
    gone = [number for each in trial.blamed_sets() for number in each]
    for number in gone:
        trial.tell(Change(number, None))
    answer = trial.next()
    return (answer, gone) if isinstance(answer, Next) else (None, [])


def most_moments(plan: Plan, outlook: Outlook) -> int:
    """How many moments what is left has at most."""
    return 2 * len(plan.steps_with(outlook.further))


def way_ahead(trial: Trial, outlook: Outlook, chosen: Mapping[str, bool]) -> Ahead:
    """How the plan goes on, after a "no" without what was let go; nothing where that takes too long."""
    try:
        with trial.copied() as (child, _):
            return play(child, chosen, most_moments(trial.plan, outlook))
    except CstnError:
        return Ahead()


def due_before(trial: Trial, outlook: Outlook) -> dict[str, int]:
    """Which steps were wanted before now, by what was told but the time that has passed."""
    plan, allowed = trial.plan, trial.allowed
    try:
        lines = trial.asked(lambda session: [it for it in session.state.lines if not it.startswith("now ")])
        child = Child(plan.document, plan.asked_deadline, cap=allowed.cap, seconds=allowed.seconds,
                      program=plan.program)
    except CstnError:
        return {}
    try:
        for line in lines:
            child.ask(line)
        return overdue(child, outlook.now, most_moments(plan, outlook))
    except CstnError:
        return {}
    finally:
        child.close()


# ---- the parts of the page ----

def places(plan: Plan, outlook: Outlook) -> dict[str, int]:
    """For each step its place, by which a page names it: that of the document, and behind these such as were put in."""
    return {step.name: index for index, step in enumerate(plan.steps_with(outlook.further))}


def next_data(found: Next | None, plan: Plan, outlook: Outlook) -> Data | None:
    if found is None:
        return None
    place = places(plan, outlook)
    return {"at": found.at, "do": [place[step] for step in found.do], "names": [shown(step) for step in found.do],
            "wait": [spoken(letter, plan.words) for letter in found.wait]}


def lateness(it: Look) -> list[Data]:
    """What is late: steps that were wanted before now, and results that were expected before now."""
    now, place = it.outlook.now, it.places
    steps = [{"step": place[step], "name": shown(step), "due": at, "by": now - at}
             for step, at in it.due.items() if step not in it.outlook.done]
    results = [{"letter": each.letter, "name": f"result {spoken(each.letter, it.plan.words)}", "due": each.expected,
                "by": now - each.expected} for each in it.outlook.awaited if each.expected < now]
    return steps + results


def standing(step: Step, it: Look) -> str:
    """Whether a step is done, left out, open, or not known to be needed yet."""
    if step.name in it.outlook.done:
        return "done"
    if step.name in it.outlook.left_out:
        return "out"
    letters = it.plan.letters_of(step.name) if step.label else ()
    return "open" if all(letter in it.outlook.seen for letter in letters) else "unknown"


def still_open(step: Step, it: Look) -> str:
    """What of a step's label is not known yet, in words."""
    left = {letter: value for letter, value in step.label.items() if letter not in it.outlook.seen}
    return named(left, it.plan.words)


def step_data(index: int, step: Step, it: Look) -> Data:
    observes = it.plan.words.get(step.observes, step.observes) if step.observes else None
    return {"index": index, "shown": shown(step.name), "start": step.name == "Z", "observes": observes,
            "reaction": step.reaction, "label": still_open(step, it), "state": standing(step, it),
            "at": it.outlook.done.get(step.name), "planned": it.ahead.steps.get(step.name),
            "by": it.latest.get(step.name), "ready": it.outlook.ready.get(step.name),
            "further": step.name in it.outlook.further}


def result_data(letter: str, it: Look) -> Data:
    observer = it.plan.observers[letter]
    data: Data = {"letter": letter, "word": spoken(letter, it.plan.words), "step": it.places[observer.name],
                  "shown": shown(observer.name), "state": "unasked", "at": None,
                  "expected": it.ahead.results.get(letter), "until": None}
    if (seen := it.outlook.seen.get(letter)) is not None:
        return data | {"state": "seen", "at": seen.at, "value": seen.value}
    for each in it.outlook.awaited:
        if each.letter == letter:
            late = it.lates.get(letter)
            until = None if late is None else "ever" if late.ever else late.until
            return data | {"state": "awaited", "expected": each.expected, "until": until}
    return data


def limit_data(limit: Limit, it: Look) -> Data:
    original = {each.id: each for each in it.plan.limits}.get(limit.id)
    now = it.outlook.limits.get(limit.id)
    least = is_least(original or limit)
    most = limit.most if now is None else now.most
    state = ("removed" if now is None else "added" if original is None
             else "changed" if most != original.most else "")
    parts = limit_parts(limit, least, most, it.plan.words)
    return {"id": limit.id, "parts": parts, "value": number_of(limit, most, least),
            "original": number_of(limit, (original or limit).most, least), "state": state, "says": shown(limit.says)}


def all_limits(it: Look) -> list[Limit]:
    """The limits of the document, also those that were removed, and those that were put in."""
    own = {limit.id for limit in it.plan.limits}
    return [*it.plan.limits, *(limit for number, limit in it.outlook.limits.items() if number not in own)]


def blame_data(it: Look) -> Data | None:
    """What a "no" blames, and how far each must give way: those of the document first, for what was put in is known."""
    if it.outlook.verdict.can is not Can.NO or it.ways is None:
        return None
    originals = {limit.id: limit for limit in it.plan.limits}
    limits, results, deadline = [], [], None
    for way in it.ways:
        if way.is_deadline:
            deadline = way.would_do
        elif way.letter is not None:
            results.append({"letter": way.letter, "word": spoken(way.letter, it.plan.words), "expected": way.is_now,
                            "needed": way.would_do})
        elif way.limit is not None:
            least = is_least(originals.get(way.limit.id, way.limit))
            needed = None if way.would_do is None else number_of(way.limit, way.would_do, least)
            limits.append({"id": way.limit.id, "needed": needed})
    limits.sort(key=lambda each: each["id"] not in originals)
    return {"limits": limits, "results": results, "deadline": deadline, "forgive": forgive_data(it),
            "let_go": list(it.let_go)}


def forgive_data(it: Look) -> Data | None:
    """What what was done has broken, and whether it fits without that."""
    if it.forgiving is None:
        return None
    found = {limit.id: limit for limit in all_limits(it)}
    limits = [limit_parts(limit, is_least(limit), limit.most, it.plan.words)
              for number in it.forgiving.ids if (limit := it.outlook.limits.get(number, found.get(number)))]
    return {"limits": limits, "verdict": it.forgiving.can.value}


def again(event: Event, it: Look) -> Data | None:
    """A fact as a page sends it, to be corrected. What was decided is not corrected, but decided anew."""
    place = it.places
    match event:
        case Did(step, at) if step in place:
            return {"kind": "did", "step": place[step], "at": at}
        case NotBefore(step, at) if step in place:
            return {"kind": "not_before", "step": place[step], "at": at}
        case Saw(letter, value, at):
            return {"kind": "saw", "letter": letter, "value": value, "at": at}
        case Expect(letter, at):
            return {"kind": "await", "letter": letter, "at": at}
        case Now(at):
            return {"kind": "now", "at": at}
    return None


def entry_data(number: int, telling: Telling, it: Look) -> Data:
    """A line of the history."""
    fact = again(telling.event, it)
    limits = {limit.id: limit for limit in all_limits(it)}
    is_forgiven = isinstance(telling.event, Forgive)
    words: list[Part] = forgiven(forgiven_by(telling), limits, it.plan.words) if is_forgiven else \
        told(telling.event, limits, it.plan.words)
    at = fact["at"] if fact and fact["kind"] in ("did", "saw") else None
    return {"n": number, "key": telling.event.key, "at": at, "parts": words, "event": fact,
            "standing": telling.standing.value, "why": shown(telling.why), "verdict": verdict_of(telling)}


def verdict_of(telling: Telling) -> str | None:
    word = telling.answer.split(" ", 1)[0]
    return word if word in ("yes", "no", "full") else None


def is_over(outlook: Outlook) -> bool:
    return isinstance(outlook.next, Done)


def brief(it: Look) -> Data:
    """What a list shows of a plan."""
    found = it.outlook.next if isinstance(it.outlook.next, Next) else it.meanwhile
    return {"verdict": it.outlook.verdict.can.value, "next": next_data(found, it.plan, it.outlook),
            "late": lateness(it), "over": is_over(it.outlook), "version": it.outlook.version}


def outcome(plan: Plan, outlook: Outlook, blame: Sequence[int]) -> Data:
    """What stands in the dialog behind "what if"."""
    found = outlook.next if isinstance(outlook.next, Next) else None
    limits = [outlook.limits[number] for number in blame if number in outlook.limits]
    return {"verdict": outlook.verdict.can.value, "over": is_over(outlook), "next": next_data(found, plan, outlook),
            "blame": [limit_parts(limit, is_least(limit), limit.most, plan.words) for limit in limits]}


def page(it: Look) -> Data:
    """What the page of a plan shows."""
    return brief(it) | {
        "deadline": it.outlook.deadline, "until": it.until if it.until != MOST else None,
        "steps": [step_data(index, step, it) for index, step in enumerate(it.steps)],
        "results": [result_data(letter, it) for letter in it.plan.observers],
        "limits": [limit_data(limit, it) for limit in all_limits(it)],
        "blame": blame_data(it),
        "ahead": [{"letter": letter, "word": spoken(letter, it.plan.words), "value": value}
                  for letter, value in it.ahead.supposed.items()],
        "history": [entry_data(number, telling, it) for number, telling in enumerate(it.tellings, 1)],
    }
