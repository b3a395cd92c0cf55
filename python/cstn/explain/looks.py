"""What is worth a second look in a document that is accepted."""
from collections.abc import Iterator
from typing import Any

from .asking import Asked
from .cases import Case, cases_by_labels, cases_of
from .limits import (ranges, tell_disagreeing, tell_never, tell_past_the_deadline, tell_repeating, tell_said_twice,
                     tell_shortest, tell_unlimited)
from .names import shown
from .networks import Network, constraint, literals, tell_unlabelled, where
from .shapes import Data, Marks, Tree
from .trees import MOST_OF_A_LOOK, size

# Where the upper limits times the constraints are more, it is not looked at what may come before what; and where what a
# tree may have to say is more, not for which steps nothing waits.
MOST_LOOKED_AT = 1000000


def looks(asked: Asked, verdict: str) -> Iterator[tuple[str, Any, list[str]]]:
    """What is found, by the name that it has as data: as data and in words; after that verdict."""
    net, tree = asked.net, None
    is_small = size(net) <= MOST_OF_A_LOOK
    if is_small and (verdict.startswith("yes") or ranges(net) and not verdict.startswith("no")):
        tree = asked.tree()
    yield "tied_to_one_case", *tell_unlabelled(net)
    yield "no_upper_limit", *tell_unlimited(net, asked.beyond)
    yield "past_the_deadline", *tell_past_the_deadline(net)
    yield "shortest", *look_at_shortest(net, is_small, tree)
    yield "disagreeing_reactions", *tell_disagreeing(net)
    yield "never_in_force", *tell_never(net)
    yield "repeating_a_label", *tell_repeating(net)
    yield "said_twice", *tell_said_twice(net)
    yield "nothing_waits", *look_at_nothing_waits(net, verdict, tree)
    yield "may_come_before", *tell_may_come_before(net)
    yield "may_be_put_off", *tell_may_be_put_off(net)


def look_at_shortest(net: Network, is_small: bool, tree: Tree | None) -> tuple[list[Data] | None, list[str]]:
    """The ranges that the plan takes at their shortest, as data and in words; or why they are not told."""
    if not ranges(net):
        return [], []
    if not is_small:
        return None, ["Which ranges the plan takes at their shortest is not told, since it has up to "
                      f"{1 << len(net.observers)} ways. What if each task takes its longest, tells `./cstn explain "
                      "--longest FILE`."]
    return tell_shortest(net, tree) if tree is not None else (None, [])


def look_at_nothing_waits(net: Network, verdict: str, tree: Tree | None) -> tuple[list[Data] | None, list[str]]:
    """The steps for which nothing waits, as data and in words, unless the plan is a no; or why they are not told."""
    if tree is not None:
        return tell_nothing_waits(net, cases_of(net, tree))
    if verdict.startswith("no"):
        return [], []
    if size(net) > MOST_LOOKED_AT:
        return None, ["For which steps nothing waits is not told, since the plan has up to "
                      f"{1 << len(net.observers)} ways."]
    return tell_nothing_waits(net, cases_by_labels(net))


def waited_for(net: Network, case: Case) -> set[str]:
    """The steps for which another one waits in a case."""
    found = {target for number, (source, target, most, _) in enumerate(net.constraints)
             if most <= 0 and source != target and source in case.moments and target in case.moments
             and case.holds(net.forces[number])}
    letters = {letter for name in case.moments for letter in net.executed[name]}
    return found | {net.observers[letter] for letter in letters}


def nothing_waits(net: Network, cases: list[Case]) -> list[tuple[str, list[Case], int]]:
    """Each step with the cases in which no other one waits for it, and in how many it is executed. The end of the plan
    is left out, the one of them that comes after the most others; and so is one of whose outcome something hangs in
    another case."""
    asked_for = {letter for marks in [*net.executed.values(), *net.forces] for letter in marks}
    found: dict[str, list[Case]] = {}
    for case in cases:
        for name in case.moments.keys() - waited_for(net, case) - {"Z"}:
            if net.observed.get(name) not in asked_for:
                found.setdefault(name, []).append(case)
    counts = {name: sum(name in case.moments for case in cases) for name in found}
    ends = [name for name in net.names if name in found and len(found[name]) == counts[name]]
    waits = waits_of(net)
    end = max(ends, key=lambda it: (counts[it], len(reached(waits, it, net.executed[it])),
                                    len(reached(waits, it, None))), default="")
    return [(name, found[name], counts[name]) for name in net.names if name in found and name != end]


def tell_nothing_waits(net: Network, cases: list[Case]) -> tuple[list[Data], list[str]]:
    """The steps for which nothing waits, as data and in words."""
    found, lines = nothing_waits(net, cases), []
    for name, each, count in found:
        which = f"in {len(each)} of its {count} cases, for example{where(each[0].label)[1:]}"
        if len(each) == count:
            which = "in every case" if count == len(cases) else "wherever it is executed"
        lines.append(f"{shown(name)}: {which}")
    if lines:
        lines.insert(0, "Steps for which nothing waits, so the plan may end before them. If that is not meant, a "
                        "constraint is missing:")
    data = [{"time_point": name, "cases": len(each), "of": count, "as": each[0].label} for name, each, count in found]
    return data, lines


def waits_of(net: Network) -> dict[str, list[tuple[str, Marks]]]:
    """For each step those that it does not come before, with where that is so."""
    found: dict[str, list[tuple[str, Marks]]] = {name: [] for name in net.names}
    for _, source, target, most, label in net.lowered:
        if most <= 0 and source != target:
            found[source].append((target, literals(label)))
    return found


def reached(waits: dict[str, list[tuple[str, Marks]]], begin: str, force: Marks | None) -> set[str]:
    """What a step comes after, or at the same moment, wherever these letters are so; or in any case."""
    found, left = {begin}, [begin]
    while left:
        for target, marks in waits[left.pop()]:
            if target not in found and (force is None or marks.items() <= force.items()):
                found.add(target)
                left.append(target)
    return found


def at_most(net: Network) -> list[int]:
    """The ids of the constraints that say `at most N after` of two steps."""
    return [number for number, (source, target, most, _) in enumerate(net.constraints)
            if most > 0 and source not in ("Z", target) and number not in net.never]


def may_come_before(net: Network) -> list[tuple[int, bool]]:
    """The ids of constraints that say `at most N after` of a step that may come before, each with whether it always
    does."""
    found, waits = [], waits_of(net)
    for number in at_most(net):
        (source, target, *_), force = net.constraints[number], net.forces[number]
        if source not in reached(waits, target, force):
            found.append((number, target in reached(waits, source, force)))
    return found


def tell_may_come_before(net: Network) -> tuple[list[Data] | None, list[str]]:
    """The constraints `at most N after` that let the step come before, as data and in words; or that they are not
    told."""
    if len(at_most(net)) * len(net.lowered) > MOST_LOOKED_AT:
        return None, ["Which steps that come at most some ticks after others may come before these is not told, since "
                      "the plan has many limits."]
    found, lines = may_come_before(net), []
    for number, always in found:
        source, target, *_ = net.constraints[number]
        says = f"{shown(target)} comes before {shown(source)} anyhow, so this limits nothing" if always else \
            f"nothing keeps {shown(target)} from coming before {shown(source)}"
        lines.append(f"{net.called(number)}: {constraint(*net.constraints[number])}: {says}")
    if lines:
        lines.insert(0, "Steps at most some ticks after others that may as well come before these:")
    return [{"constraint": number, "always": always} for number, always in found], lines


def teller(net: Network, name: str) -> str:
    """Whoever tells the last of the outcomes that the label of a time-point asks for."""
    letters = literals(net.labels[name])
    return max((net.observers[it] for it in letters), key=lambda it: (len(net.executed[it]), net.places[it]))


def may_be_put_off(net: Network) -> list[tuple[int, str]]:
    """The ids of constraints that say `at most N after` of a step that only its label ties to what comes before, each
    with who tells what the label asks for: nothing has that step come as soon as the outcome is known."""
    is_held = {source for source, target, most, _ in net.constraints if most <= 0 and source != target}
    limits: dict[str, set[str]] = {}
    for source, target, most, _ in net.constraints:
        if source != target and most >= 0:
            limits.setdefault(target, set()).add(source)
    loose = [name for name in net.labels if name not in is_held and None not in net.executed[name].values()]
    return [(number, teller(net, source)) for name in loose for number in net.ties[name]
            for source, target, most, _ in [net.constraints[number]]
            if source == name and target not in (name, "Z") and most > 0 and number not in net.never
            and not limits.get(name, set()) - {target}]


def tell_may_be_put_off(net: Network) -> tuple[list[Data], list[str]]:
    """The constraints `at most N after` a step that may be put off, as data and in words."""
    found, lines = sorted(may_be_put_off(net)), []
    for number, observer in found:
        source = net.constraints[number][0]
        lines.append(f"{net.called(number)}: {constraint(*net.constraints[number])}: from {shown(observer)} to "
                     f"{shown(source)}, {net.reaction(observer)}")
    if lines:
        lines.insert(0, "Steps at most some ticks after others that the plan may put off, since these have a label and "
                        "no limit. If such a one stands for a result, a limit is missing:")
    return [{"constraint": number, "observer": observer} for number, observer in found], lines
