"""The network of a canonical document, its constraints in words, and its copy without labels on time-points."""
import functools
import re
from collections.abc import Iterable, Iterator, Mapping

from ..order import levels
from .names import plain, quoted, shown
from .shapes import Data, Marks
from .spoken import Spoken


class Network:
    """The network of a canonical document: its deadline, its time-points, and its constraints by their ids.

    Of one that `rest` wrote in a session, `awaited` has until when each outcome is awaited whose observer was done.
    """

    def __init__(self, text: str) -> None:
        self.deadline = max(map(int, re.findall(r'<data key="Deadline">(\d+)</data>', text)[:1]))
        self.names: list[str] = []
        self.observed: dict[str, str] = {}
        self.reactions: dict[str, str] = {}
        self.labels: dict[str, str] = {}
        self.constraints: list[tuple[str, str, int, str]] = []
        self.rows: list[int] = []
        self.says: list[str] = []
        self.lines: dict[tuple[str | None, str], int] = {}
        self.awaited: dict[str, int] | None = None
        self.is_canonical = False
        self.read(text)
        self.places = {name: place for place, name in enumerate(self.names)}
        self.observers = {letter: name for name, letter in self.observed.items()}

    def read(self, text: str) -> None:
        for line in text.split("\n"):
            node = re.match(r'<node id="([^"]*)"', line)
            edge = re.match(r'<edge source="([^"]*)" target="([^"]*)">.*\{\((-?\d+), ([^)]*)\)\}', line)
            if node:
                name = plain(node[1])
                self.names.append(name)
                for key, value in re.findall(r'<data key="(\w+)">([^<]*)</data>', line):
                    {"Obs": self.observed, "Reaction": self.reactions, "Label": self.labels}[key][name] = value
            elif edge:
                self.constraints.append((plain(edge[1]), plain(edge[2]), int(edge[3]), edge[4]))

    def limit(self, name: str) -> int:
        return 0 if name == "Z" else self.deadline

    def reaction(self, name: str) -> int:
        return int(self.reactions.get(name, 1))

    @functools.cached_property
    def pins(self) -> dict[str, int]:
        """The moment at which constraints have a time-point, for each of which they say one."""
        back = {(source, most, label) for source, target, most, label in self.constraints if target == "Z"}
        found: dict[str, int] = {}
        for source, target, most, label in self.constraints:
            if source == "Z" and (target, -most, label) in back:
                found.setdefault(target, most)
        return found

    @functools.cached_property
    def from_start(self) -> set[int]:
        """The ids of the constraints that count from the start, so that their values are moments."""
        return {number for number, (source, target, most, _) in enumerate(self.constraints)
                if source != target and (target if most < 0 else source) == "Z"}

    @functools.cached_property
    def ties(self) -> dict[str, list[int]]:
        """The constraints of each time-point, by their ids."""
        found: dict[str, list[int]] = {name: [] for name in self.names}
        for number, (source, target, *_) in enumerate(self.constraints):
            for name in dict.fromkeys((source, target)):
                found[name].append(number)
        return found

    def levels(self, names: Iterable[str]) -> dict[str, int]:
        """For each of some steps of one moment how many of them, one behind another, it waits for."""
        names = list(names)
        return levels(names, ((source, target) for name in names for number in self.ties.get(name, [])
                              if number not in self.never
                              for source, target, most, _ in [self.constraints[number]]
                              if most <= 0 and source == name != "Z"))

    def in_order(self, moments: Mapping[str, int]) -> list[str]:
        """Some steps in the order of their moments, and at one moment those that wait behind those they wait for."""
        groups: dict[int, list[str]] = {}
        for name, moment in moments.items():
            groups.setdefault(moment, []).append(name)
        found: list[str] = []
        for moment in sorted(groups):
            level = self.levels(groups[moment])
            found += sorted(level, key=lambda it: (level[it], self.places.get(it, len(self.names))))
        return found

    def called(self, number: int) -> str:
        """The id of a constraint, with its line in FILE where that was found, and what that line says in a plan."""
        says = f": {self.says[number]}" if self.says else ""
        return f"{number} (line {self.rows[number]}{says})" if self.has_rows() else str(number)

    def called_both(self, one: int, other: int) -> str:
        """Two constraints, with their line once where one line of a plan says both."""
        if self.says and self.rows[one] == self.rows[other]:
            return f"{one} and {self.called(other)}"
        return f"{self.called(one)} and {self.called(other)}"

    def limit_rows(self) -> list[int]:
        """The line of each limit, by ids, if they are known."""
        return self.rows if self.has_rows() else []

    def has_rows(self) -> bool:
        return len(self.rows) == len(self.constraints)

    def told_at(self, name: str, key: str) -> str:
        """A time-point, with the line of its label or of what it observes."""
        return f"{shown(name)} of line {self.lines[name, key]}" if (name, key) in self.lines else shown(name)

    @functools.cached_property
    def owed(self) -> dict[str, Marks]:
        """For each letter the label of its observer, joined with those of the observers of what that marks."""
        found = {letter: literals(self.labels.get(name, "")) for letter, name in self.observers.items()}
        last = None
        while found != last:
            last = dict(found)
            for letter, marks in last.items():
                for other in marks:
                    found[letter] = joined(found[letter], last.get(other, {}))
        return found

    def completed(self, marks: Marks) -> Marks:
        """A label joined with the labels of the observers of what it marks; a letter with both signs maps to None."""
        full = marks
        for letter in marks:
            full = joined(full, self.owed.get(letter, {}))
        return full

    @functools.cached_property
    def executed(self) -> dict[str, Marks]:
        """For each time-point where it is executed: its completed label."""
        return {name: self.completed(literals(self.labels.get(name, ""))) for name in self.names}

    def is_executed(self, name: str, known: Marks) -> bool:
        """Whether a time-point is executed by what is known: its completed label holds."""
        return all(known.get(letter) == value for letter, value in self.executed[name].items())

    def is_told(self, letter: str, known: Marks) -> bool:
        """Whether somebody who is executed observes a letter."""
        return letter in self.observers and self.is_executed(self.observers[letter], known)

    @functools.cached_property
    def forces(self) -> list[Marks]:
        """Where each constraint is in force: its label with those of its time-points, completed."""
        return [self.completed(literals(label + self.labels.get(source, "") + self.labels.get(target, "")))
                for source, target, _, label in self.constraints]

    @functools.cached_property
    def never(self) -> set[int]:
        """The constraints that are never in force."""
        return {number for number, marks in enumerate(self.forces) if None in marks.values()}

    @functools.cached_property
    def marks(self) -> dict[str, list[Marks]]:
        """For each time-point the labels of the constraints that say when it may come, after another, not before it, or
        some ticks after it at most."""
        found: dict[str, dict[str, Marks]] = {}
        for number, (source, target, most, _) in enumerate(self.constraints):
            if number not in self.never:
                marks, waits = self.forces[number], most < 0 or most == 0 and source != "Z"
                found.setdefault(source if waits else target, {})[written(marks)] = marks
        return {name: list(each.values()) for name, each in found.items()}

    def unknown(self, name: str, known: Marks) -> list[str]:
        """The letters that constraints of a time-point ask for and that aren't known where it is executed."""
        holds = [marks for marks in self.marks.get(name, [])
                 if all(known.get(letter, value) == value for letter, value in marks.items())]
        return sorted(set[str]().union(*holds) - known.keys() - {self.observed.get(name, "")})

    @functools.cached_property
    def lowered(self) -> list[tuple[int | None, str, str, int, str]]:
        """What the steps of a refutation count: the constraints that are in force anywhere, by their ids, and then
        who waits for what."""
        if not self.labels:
            return [(number, *parts) for number, parts in enumerate(self.constraints)]
        found: list[tuple[int | None, str, str, int, str]] = [
            (number, source, target, most, written(self.forces[number]))
            for number, (source, target, most, _) in enumerate(self.constraints) if number not in self.never]
        for name in self.names:
            marks = self.executed[name]
            for letter in sorted(marks):
                observer = self.observers[letter]
                found.append((None, name, observer, -self.reaction(observer), written(marks)))
        return found

    @functools.cached_property
    def data(self) -> Data:
        """The network as data: its deadline, time-points and constraints, each with its line where that was found."""
        rows: list[int | None] = [*self.rows] if self.has_rows() else [None] * len(self.constraints)
        points = [{"name": name, "observes": self.observed.get(name),
                   "reaction": self.reaction(name) if name in self.observed else None,
                   "label": self.labels.get(name, "")} for name in self.names]
        constraints = [{"id": number, "line": rows[number], "from": source, "to": target, "at_most": most,
                        "label": label, "says": constraint(source, target, most, label),
                        "counts": None if number in self.never else written(self.forces[number])}
                       for number, (source, target, most, label) in enumerate(self.constraints)]
        return {"deadline": self.deadline, "time_points": points, "constraints": constraints}


@functools.lru_cache(maxsize=None)
def literals(label: str) -> Marks:
    """The letters of a label, each with whether it is to be true, and None where it has both signs."""
    marks: Marks = {}
    for sign, letter in re.findall(r"([¬!]?)([A-Za-z])", label):
        value = not sign
        marks[letter] = value if marks.get(letter, value) == value else None
    return marks


def joined(marks: Marks, others: Marks) -> Marks:
    return marks | {letter: value if marks.get(letter, value) == value else None for letter, value in others.items()}


def written(marks: Marks) -> str:
    return "".join(letter if value else "¬" + letter for letter, value in sorted(marks.items()))


def ticks(number: int) -> str:
    return f"{number} tick" if number == 1 else f"{number} ticks"


def where(label: str) -> str:
    """A label of a document or of a text in words, and nothing for the empty one."""
    signs = {"": "is true", "¬": "is false", "!": "is false", "?": "isn't known yet"}
    words = [f"{Spoken.letter(letter)} {signs[sign]}" for sign, letter in re.findall(r"([¬!?]?)([A-Za-z])", label)]
    return ", if " + " and ".join(words) if words else ""


def constraint(source: str, target: str, most: int, label: str) -> str:
    """What a constraint says: the moment of target less the moment of source is at most `most`."""
    one, other = shown(source), shown(target)
    if source == target:
        says = f"{one} at most {most} after itself, which " + ("cannot be" if most < 0 else "always holds")
    elif target == "Z" and most <= 0:
        says = f"{one} at {Spoken.moment(-most)} or later"
    elif source == "Z" and most >= 0:
        says = f"{other} at {Spoken.moment(most)} or earlier"
    elif most < 0:
        says = f"{one} at least {ticks(-most)} after {other}"
    elif most > 0:
        says = f"{other} at most {ticks(most)} after {one}"
    else:
        says = f"{other} no later than {one}"
    return says + where(label)


def network_in_words(net: Network) -> list[str]:
    """The deadline, the time-points, what is observed, the labels and the constraints, a line for each."""
    names = ", ".join(shown(name) for name in net.names)
    lines = [f"The deadline is {Spoken.moment(net.deadline)}. {len(net.names)} time-points: {names}."]
    lines += [f"{shown(name)} tells {Spoken.letter(letter)}, which is known {ticks(net.reaction(name))} later."
              for name, letter in net.observed.items()]
    lines += [f"{shown(name)} is executed only{where(label)[1:]}." for name, label in net.labels.items()]
    for number, parts in enumerate(net.constraints):
        beside = counts_where(net, number)
        lines.append(f"{net.called(number)}: {constraint(*parts)}{beside}")
    return lines


def tied_to_one_case(net: Network) -> Iterator[tuple[str, str]]:
    """Each time-point without a label that is tied to time-points of one case alone, by their labels, with it."""
    for name in [it for it in net.names if it != "Z" and it not in net.labels]:
        common: set[tuple[str, bool | None]] | None = None
        for number in net.ties[name]:
            own = literals(net.constraints[number][3])
            marks = {it for it in net.forces[number].items() if it[0] not in own}
            common = marks if common is None else common & marks
            if not common:
                break
        if common and None not in dict(common).values():
            yield name, written(dict(common))


def tell_unlabelled(net: Network) -> tuple[list[Data], list[str]]:
    """The time-points without a label that are tied to one case alone, as data and in words."""
    found = list(tied_to_one_case(net))
    return ([{"time_point": name, "tied_to": label} for name, label in found],
            [f"{shown(name)} has no label, so it is executed in every case, though all that its constraints tie it to "
             f"is executed only{where(label)[1:]}." for name, label in found])


def counts_where(net: Network, number: int) -> str:
    """Where a constraint counts beside what its own label says, in words: by labels of its time-points and of
    observers."""
    if not net.labels:
        return ""
    source, target, _, label = net.constraints[number]
    marks, own = net.forces[number], literals(label)
    if number in net.never:
        return " (never in force: its label and those of its time-points exclude each other)"
    added = {letter: value for letter, value in marks.items() if letter not in own}
    near = {source, target, *(net.observers[letter] for letter in marks if letter in net.observers)}
    owners = [shown(name) for name in sorted(near & net.labels.keys(), key=net.places.__getitem__)
              if literals(net.labels[name]).keys() & added.keys()]
    return f" (counts only{where(written(added))[1:]}: the label of {' and of '.join(owners)})" if added else ""


def plain_copy(net: Network) -> str:
    """The network as a document without labels on its time-points: each waits for its label, and its constraints count
    where the label holds."""
    lines = [f'<graphml><graph>\n<data key="Deadline">{net.deadline}</data>']
    for name in net.names:
        letter = net.observed.get(name)
        data = f'<data key="Obs">{letter}</data><data key="Reaction">{net.reaction(name)}</data>' if letter else ""
        lines.append(f"<node id={quoted(name)}>{data}</node>")
    for _, source, target, most, label in net.lowered:
        values = f'<data key="LabeledValues">{{({most}, {label or "⊡"})}}</data>'
        lines.append(f"<edge source={quoted(source)} target={quoted(target)}>{values}</edge>")
    return "\n".join(lines) + "\n</graph></graphml>\n"
