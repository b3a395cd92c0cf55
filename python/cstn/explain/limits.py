"""What a document leaves open, or says twice: steps without an upper limit, ranges that a plan takes at their
shortest, reactions that are written again by hand, and constraints that are never in force."""
import collections
from collections.abc import Callable, Iterator

from .cases import ways
from .names import shown
from .networks import Network, constraint, literals, ticks, where, written
from .shapes import Data, Marks, Tree
from .spoken import Spoken

MOST_CASES = 16
MOST_CHANGES = 32

# Says of each time-point with a case whether it can come after the deadline, yes, no or not known; or nothing of all.
Beyond = Callable[[list[tuple[str, Marks]]], list[bool | None] | None]

# Of each time-point the ends and the labels of the constraints that begin there, with what these labels mark.
Edges = dict[str, dict[tuple[str, str], Marks]]


def is_within(case: Marks, other: Marks) -> bool:
    """Whether a case is a part of another, which asks for less."""
    return other.items() <= case.items()


def without(case: Marks, letter: str) -> Marks:
    return {it: value for it, value in case.items() if it != letter}


def widened(case: Marks, other: Marks) -> Marks | None:
    """A case without a letter that another one has with the other sign, where that asks for nothing more; or none."""
    for letter, value in case.items():
        if other.get(letter, value) != value and is_within(case, without(other, letter)):
            return without(case, letter)
    return None


class Cover:
    """The cases in which a time-point is limited: few wide ones, since two that differ in one sign of a letter are
    one.

    It is given up where it has too many, or is changed too often; then what it does not cover is not known.
    """

    def __init__(self) -> None:
        self.cases: list[Marks] = []
        self.changes, self.is_given_up = 0, False

    def add(self, case: Marks) -> list[Marks]:
        """Takes in a case; it answers the wider ones that are new by it."""
        if self.is_given_up and case or any(is_within(case, it) for it in self.cases):
            return []
        left, new = [case], []
        while left:
            case = left.pop()
            while wider := next(filter(None, (widened(case, it) for it in self.cases)), None):
                case = wider
            if any(is_within(case, it) for it in self.cases):
                continue
            left += [wider for it in self.cases if (wider := widened(it, case)) is not None]
            self.cases = [it for it in self.cases if not is_within(it, case)] + [case]
            new.append(case)
        self.changes += len(new)
        self.is_given_up = {} not in self.cases and (len(self.cases) > MOST_CASES or self.changes > MOST_CHANGES)
        return new

    def lacks(self, net: Network, own: Marks) -> list[Marks] | None:
        """The cases within a case that are not covered, each as wide as can be, with what has to hold for its letters
        to be asked; or none where that is not known."""
        cases = [own]
        for cover in self.cases:
            cases = uncovered(net, cases, cover)
            if len(cases) > MOST_CASES:
                return None
        return None if cases and self.is_given_up else cases


def uncovered(net: Network, cases: list[Marks], cover: Marks) -> list[Marks]:
    """What a label leaves of some cases."""
    grown = []
    for case in cases:
        near = [case]
        if all(case.get(letter, value) == value for letter, value in cover.items()):
            near = [net.completed({**case, letter: not value})
                    for letter, value in cover.items() if letter not in case]
        grown += [it for it in near if None not in it.values() and it not in grown]
    return [it for it in grown if not any(other.items() < it.items() for other in grown)]


def limited_from_start(net: Network) -> dict[str, Cover]:
    """For each time-point its cover by constraints that limit it, one after another, from the origin on."""
    covers = {name: Cover() for name in net.names}
    edges: Edges = {}
    for _, source, target, _, label in net.lowered:
        if source != target:
            edges.setdefault(source, {})[target, label] = literals(label)
    left = collections.deque(("Z", case) for case in covers["Z"].add({}))
    while left:
        name, case = left.popleft()
        if covers[name].is_given_up or case not in covers[name].cases:
            continue
        for (target, _), marks in edges.get(name, {}).items():
            if all(marks.get(letter, value) == value for letter, value in case.items()):
                left += [(target, it) for it in covers[target].add({**case, **marks})]
    give_up_behind(covers, edges)
    return covers


def give_up_behind(covers: dict[str, Cover], edges: Edges) -> None:
    """Where a cover was given up, those that come of it are not known either."""
    left = [name for name, cover in covers.items() if cover.is_given_up]
    while left:
        for target, _ in edges.get(left.pop(), {}):
            if {} not in covers[target].cases and not covers[target].is_given_up:
                covers[target].is_given_up = True
                left.append(target)


def unlimited(net: Network) -> tuple[list[tuple[str, Marks, bool]], list[str]]:
    """Each time-point but the origin with the cases in which no constraint and no label limits it from above; and
    those of which that is not known.

    What is at most some ticks after a step is not listed, nor what comes before a step that is limited itself.
    """
    covers = limited_from_start(net)
    for _, source, target, most, label in net.lowered:
        if most >= 0 and source != target:
            covers[target].add(literals(label))
    found, unknown = [], []
    for name in net.names:
        own = net.executed[name]
        lacks = covers[name].lacks(net, own) if name != "Z" and None not in own.values() else []
        if lacks is None:
            unknown.append(name)
        else:
            found += [(name, case, case == own) for case in lacks]
    return found, unknown


def tell_unlimited(net: Network, tried: Beyond) -> tuple[list[Data], list[str]]:
    """The steps without an upper limit, as data and in words; `tried` says of each whether it can come after the
    deadline, yes, no or not known, or nothing where that is too much to try."""
    found, unknown = unlimited(net)
    beyond = tried([(name, case) for name, case, _ in found]) or [None] * len(found)
    lines = in_words("No upper limit but the deadline", [it for it, can in zip(found, beyond) if can])
    lines += in_words("No upper limit written on these steps but the deadline",
                      [it for it, can in zip(found, beyond) if can is None])
    if unknown:
        names = ", ".join(shown(name) for name in unknown)
        lines.append("Whether these have an upper limit is not told, since it takes more than "
                     f"{MOST_CASES} cases: {names}.")
    data = [{"time_point": name, "where": written(case)}
            for (name, case, _), can in zip(found, beyond) if can is not False]
    return data, lines


def in_words(head: str, found: list[tuple[str, Marks, bool]]) -> list[str]:
    """Steps with the cases in which they have no limit, in words."""
    cases: dict[str, list[str]] = {}
    for name, case, whole in found:
        cases.setdefault(name, []).extend([] if whole else [where(written(case))[2:]])
    names = [shown(name) + (f" ({', or '.join(each)})" if each else "") for name, each in cases.items()]
    return [f"{head}: {'; '.join(names)}."] if names else []


def tell_past_the_deadline(net: Network) -> tuple[list[Data], list[str]]:
    """The limits that count from the start and lie after the deadline, as data and in words."""
    late, lines = [it for it in sorted(net.from_start - net.never) if abs(net.constraints[it][2]) > net.deadline], []
    for number in late:
        is_least = net.constraints[number][2] < 0
        why = "so it cannot be executed in time" if is_least else "so this limits nothing"
        lines.append(f"{net.called(number)}: {constraint(*net.constraints[number])}, {why}")
    if lines:
        next_day = "" if Spoken.clock.start is None else \
            f" (times before {Spoken.clock.says(0)} are those of the next day)"
        lines.insert(0, f"Limits that lie after the deadline, {Spoken.moment(net.deadline)}{next_day}:")
    return [{"constraint": number} for number in late], lines


def ranges(net: Network) -> list[tuple[int, int, str, str, int, int]]:
    """Each two constraints with one label that say a range: the ids of the least and the most, and what they say."""
    most = {}
    for number, (source, target, value, label) in enumerate(net.constraints):
        if value >= 0 and source != target:
            most[source, target, written(literals(label))] = number
    found = []
    for number, (source, target, value, label) in enumerate(net.constraints):
        other = most.get((target, source, written(literals(label))))
        if value < 0 and other is not None and net.constraints[other][2] > -value:
            found.append((number, other, target, source, -value, net.constraints[other][2]))
    return found


def shortest(net: Network, tree: Tree) -> list[tuple[int, int, str, str, int, int, bool]]:
    """The ranges that a plan takes at their shortest, each with whether it does so in every case where it counts."""
    all_ways, found = list(ways(tree, {}, {})), []
    for least, most, first, then, low, high in ranges(net):
        marks = net.forces[least]
        taken = [moments[then] - moments[first] == low for known, moments in all_ways
                 if first in moments and then in moments
                 and all(known.get(letter, value) == value for letter, value in marks.items())]
        if any(taken):
            found.append((least, most, first, then, low, high, all(taken)))
    return found


def tell_shortest(net: Network, tree: Tree) -> tuple[list[Data], list[str]]:
    """The ranges that a plan takes at their shortest, as data and in words."""
    found, lines = shortest(net, tree), []
    for least, most, first, then, low, high, every in found:
        ids = net.called_both(*sorted((least, most)))
        says = f"{shown(then)} {low} to {ticks(high)} after {shown(first)}{where(net.constraints[least][3])}"
        lines.append(f"{ids}: {says}: the plan takes {low}{'' if every else ' in some cases'}")
    if lines:
        lines.insert(0, "Ranges that the plan takes at their shortest. If the length is not its choice, the yes "
                        "says nothing of a longer one: write the longest as the least, or as the reaction of an "
                        "observation.")
    data = [{"constraints": [least, most], "from": first, "to": then, "least": low, "most": high,
             "in_every_case": every}
            for least, most, first, then, low, high, every in found]
    return data, lines


def bits(marks: Marks) -> int:
    """A label as a number, of which another is a part where all of its bits are."""
    return sum(1 << (2 * ord(letter) + bool(value)) for letter, value in marks.items())


def waits(net: Network, observer: str) -> Iterator[tuple[int, str, int]]:
    """The constraints by which a time-point comes at least some ticks after an observer, without a label of its own
    for what that tells."""
    letter = net.observed[observer]
    for number in net.ties[observer]:
        source, target, most, _ = net.constraints[number]
        is_wait = target == observer and most < 0 and source != observer and number not in net.never
        if is_wait and letter not in net.executed[source]:
            yield number, source, -most


def disagreeing(net: Network) -> list[tuple[int, str, int]]:
    """The constraints that seem to repeat a reaction by hand and have another number.

    These are shorter ones, and longer ones that stand there twice or more while none has the number of the reaction.
    """
    found = []
    for observer in net.observed:
        reaction, all_waits = net.reaction(observer), list(waits(net, observer))
        if reaction < 2:
            continue
        counts = collections.Counter(least for _, _, least in all_waits)
        longer: dict[str, set[int]] = {}
        for number, source, least in all_waits:
            if least >= reaction:
                longer.setdefault(source, set()).add(bits(net.forces[number]))
        for number, source, least in all_waits:
            own = bits(net.forces[number]) if least < reaction else 0
            is_short = least < reaction and not any(it & own == it for it in longer.get(source, ()))
            if is_short or least > reaction and counts[least] > 1 and not counts[reaction]:
                found.append((number, observer, least))
    return found


def tell_disagreeing(net: Network) -> tuple[list[Data], list[str]]:
    """The constraints that seem to repeat a reaction and do not agree with it, as data and in words."""
    found, lines = disagreeing(net), []
    for number, observer, least in found:
        reaction, name = net.reaction(observer), shown(net.constraints[number][0])
        letter = Spoken.letter(net.observed[observer])
        fault = "where others say the same: is it the reaction of an earlier day?"
        if least < reaction:
            fault = f"so {name} does not wait for {letter}"
        lines.append(f"{net.called(number)}: {name} at least {ticks(least)} after {shown(observer)}, but {letter} is "
                     f"known {ticks(reaction)} after it, {fault}")
    if lines:
        lines.insert(0, "Reactions that seem to be written again in a limit, and do not agree:")
    data = [{"constraint": number, "observer": observer, "reaction": net.reaction(observer), "at_least": least}
            for number, observer, least in found]
    return data, lines


def tell_never(net: Network) -> tuple[list[int], list[str]]:
    """The constraints that are never in force, since their labels exclude each other, as data and in words."""
    found = sorted(net.never)
    lines = [f"{net.called(number)}: {constraint(*net.constraints[number])}" for number in found]
    if lines:
        lines.insert(0, "Never in force, since the label of each and those of its time-points exclude each other:")
    return found, lines


def repeating(net: Network) -> Iterator[tuple[int, str, str]]:
    """The constraints by which a time-point waits for an outcome for which its label makes it wait anyhow, as long."""
    for number, (source, target, most, _) in enumerate(net.constraints):
        letter = net.observed.get(target)
        repeats = letter and letter in net.executed[source] and most == -net.reaction(target)
        if repeats and number not in net.never:
            yield number, source, target


def tell_repeating(net: Network) -> tuple[list[Data], list[str]]:
    """The constraints that only repeat what a label asks for, as data and in words."""
    found = list(repeating(net))
    lines = [f"{net.called(number)}: the label of {shown(source)} makes it wait until "
             f"{Spoken.letter(net.observed[target])} is known" for number, source, target in found]
    if lines:
        lines.insert(0, "Limits that only repeat what a label asks for. In `follow` they count also if the outcome "
                        "comes early: leave them out if that is not meant.")
    return [{"constraint": number, "observer": target} for number, _, target in found], lines


def tell_said_twice(net: Network) -> tuple[list[Data], list[str]]:
    """The constraints that say what an earlier one says, as data and in words."""
    first: dict[tuple[str, str, int, str], int] = {}
    found, lines = [], []
    for number, (source, target, most, label) in enumerate(net.constraints):
        other = first.setdefault((source, target, most, written(literals(label))), number)
        if other != number and source != target:
            found.append((number, other))
            lines.append(f"{net.called_both(other, number)}: {constraint(source, target, most, label)}")
    if lines:
        lines.insert(0, "Limits that are said twice. Whoever gives one up in a session has to give up both:")
    return [{"constraint": number, "as": other} for number, other in found], lines
