"""What waits for what, as a graph: its boxes and its arrows, with what each says in words.

An arrow leads from a step to one that waits for it. It is a constraint, or several between the same two steps, or an
outcome that the later one's label asks for. What ties a step to the start stands in its box.
"""
from dataclasses import dataclass, field

from ..explain.networks import Network, literals, ticks
from ..explain.shapes import Marks
from ..explain.spoken import Clock, Spoken
from .plans import Blame, Plan


@dataclass
class Line:
    """A line of words, and whether it belongs to what cannot be met together."""

    says: str
    is_blamed: bool = False


@dataclass
class Box:
    """A step: its name, and what its box says below."""

    name: str
    letter: str
    lines: list[Line] = field(default_factory=list)


@dataclass
class Arrow:
    """What leads from one step to another. It is `loose` where the later one may as well come before; `is_always` where
    it comes after in every case; and `asks` is the letter that its label asks for."""

    first: str
    then: str
    lines: list[Line] = field(default_factory=list)
    loose: bool = True
    is_always: bool = False
    letters: set[str] = field(default_factory=set)
    asks: str = ""

    @property
    def is_blamed(self) -> bool:
        return any(it.is_blamed for it in self.lines)


def condition(label: str, given: Marks | None = None) -> str:
    """A label in few words, as in ` if b and not o`, without what is given anyhow."""
    words = [("" if value else "not ") + Spoken.word(letter) for letter, value in left_of(label, given or {}).items()]
    return f" if {' and '.join(words)}" if words else ""


def left_of(label: str, given: Marks) -> Marks:
    """What a label marks beside what is given."""
    return {letter: value for letter, value in literals(label).items() if given.get(letter) != value}


def lasting(least: int | None, most: int | None) -> str:
    """How long after, in few words."""
    if most is None:
        return f"{least} or more" if least else ""
    if least == most == 0:
        return "together"
    if not least:
        return f"within {most}" if least == 0 else f"at most {most}"
    return f"just {least}" if least == most else f"{least} to {most}"


def at_moments(clock: Clock, least: int | None, most: int | None) -> str:
    """When, in few words."""
    if least is None or most is None:
        return f"at {clock.says(least)} or later" if least is not None else f"by {clock.says(most or 0)}"
    return f"at {clock.says(least)}" if least == most else f"from {clock.says(least)} to {clock.says(most)}"


@dataclass
class Limits:
    """How long one step comes after another where a label holds, and whether that is to blame."""

    least: int | None = None
    most: int | None = None
    is_blamed: bool = False


def limits_of(net: Network, blame: Blame) -> dict[tuple[str, str], dict[str, Limits]]:
    """For each step and one that comes behind it, by the labels, how long behind."""
    found: dict[tuple[str, str], dict[str, Limits]] = {}
    behind = {(target, source) for source, target, most, _ in net.constraints if most <= 0}
    for number, (source, target, most, label) in enumerate(net.constraints):
        if source == target or number in net.never:
            continue
        is_later = net.places[source] > net.places[target]
        is_least = most < 0 or most == 0 and (is_later or (source, target) not in behind)
        ends = (target, source) if is_least else (source, target)
        limits = found.setdefault(ends, {}).setdefault(label, Limits())
        limits.is_blamed = limits.is_blamed or number in blame.constraints
        if is_least:
            limits.least = -most if limits.least is None else max(limits.least, -most)
        else:
            limits.most = most if limits.most is None else min(limits.most, most)
    return found


def boxes_of(plan: Plan) -> list[Box]:
    """The steps but the start, with what they tell, where they are executed, and what ties them to the start."""
    net, blame = plan.net, plan.blame or Blame()
    limits, found = limits_of(net, blame), []
    for name in net.names:
        box = Box(name, net.observed.get(name, ""))
        if box.letter:
            after = ticks(net.reaction(name)) if plan.clock.start is None else plan.clock.lasts(net.reaction(name))
            box.lines.append(Line(f"tells {Spoken.letter(box.letter)} {after} later", name in blame.reactions))
        if name in net.labels:
            box.lines.append(Line(f"only{condition(net.labels[name])}"))
        for label, limit in limits.get(("Z", name), {}).items():
            says = at_moments(plan.clock, limit.least, limit.most)
            box.lines.append(Line(says + condition(label, net.executed[name]), limit.is_blamed))
        for label, limit in limits.get((name, "Z"), {}).items():
            box.lines.append(Line(f"by {plan.clock.says(-(limit.least or 0))}{condition(label, net.executed[name])}",
                                  limit.is_blamed))
        box.lines += [Line(f"{-most} or more after itself{condition(label)}", number in blame.constraints)
                      for number, (source, target, most, label) in enumerate(net.constraints)
                      if source == target == name and most < 0]
        if name != "Z" or box.lines:
            found.append(box)
    return found


def arrows_of(plan: Plan) -> list[Arrow]:
    """What leads from step to step."""
    net, blame = plan.net, plan.blame or Blame()
    found: dict[tuple[str, str], Arrow] = {}
    for (first, then), labels in limits_of(net, blame).items():
        if "Z" in (first, then):
            continue
        arrow = found.setdefault((first, then), Arrow(first, then))
        given = net.executed[first] | net.executed[then]
        for label, limit in labels.items():
            left = left_of(label, given)
            arrow.loose = arrow.loose and limit.least is None
            arrow.is_always = arrow.is_always or limit.least is not None and not left
            arrow.letters |= left.keys()
            says = (lasting(limit.least, limit.most) + condition(label, given)).strip()
            if says or limit.is_blamed:
                arrow.lines.append(Line(says or "after", limit.is_blamed))
    behind: dict[str, list[str]] = {}
    for arrow in found.values():
        if arrow.is_always:
            behind.setdefault(arrow.then, []).append(arrow.first)
    for name in net.labels:
        add_waits(net, blame, found, name, behind.get(name, []))
    return list(found.values())


def add_waits(net: Network, blame: Blame, found: dict[tuple[str, str], Arrow], name: str, before: list[str]) -> None:
    """Adds the outcomes that a label marks, but for one that a step before it has waited for too; and what is to
    blame."""
    own = literals(net.labels[name])
    for letter, value in net.executed[name].items():
        observer = net.observers[letter]
        is_blamed = (name, observer) in blame.labels
        is_implied = letter in net.completed({it: own[it] for it in own if it != letter})
        is_implied = is_implied or any(net.executed[it].get(letter) == value for it in before)
        is_drawn = letter in own and (not is_implied or (observer, name) in found)
        if observer == name or not is_drawn and not is_blamed:
            continue
        arrow = found.setdefault((observer, name), Arrow(observer, name))
        arrow.loose, arrow.asks = False, letter
        arrow.lines.insert(0, Line(f"{Spoken.word(letter)} {str(value).lower()}", is_blamed))
