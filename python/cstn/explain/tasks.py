"""Tasks: two steps of which one begins what the other ends, as their names say or as a file says."""
import re
from dataclasses import dataclass

from ..said import Said
from .names import printed, shown
from .networks import Network, literals, ticks, where, written
from .stopped import Stopped

BEGINS = ("begin", "begins", "start", "starts", "open", "up")
ENDS = ("end", "ends", "done", "finish", "stop", "close", "down")


@dataclass(frozen=True)
class Task:
    """What begins with one step and ends with another."""

    name: str
    begin: str
    end: str


def stem(name: str, words: tuple[str, ...]) -> str | None:
    """The name without one of these words at its end, in small letters, or none."""
    for word in words:
        found = re.fullmatch(f"(.+?)[-_. ]?{word}", name, re.I)
        if found:
            return found[1].lower()
    return None


def is_pair(begin: str, end: str) -> bool:
    """Whether the names of two steps say that one ends what the other begins: CabinBegin and CabinEnd, Bore, which ends
    BoreBegin, HandOverEnd, which ends HandOver, CowlOpened, which ends CowlOpen."""
    first, last = stem(begin, BEGINS), stem(end, ENDS)
    alike = first is not None and first in (last, end.lower())
    return alike or last == begin.lower() or end.lower() in (f"{begin}ed".lower(), f"{begin}d".lower())


def named(begin: str, end: str) -> str:
    """The name of the task of two steps: what they share, or the first."""
    shared = 0
    while begin[shared : shared + 1].lower() == end[shared : shared + 1].lower() != "":
        shared += 1
    return begin[:shared].rstrip("-_. ") or begin


def tasks_of(net: Network) -> list[Task]:
    """The tasks of a network: each pair of steps of which one has to come some ticks after the other, and whose names
    say so. A step is in one task at most."""
    found: list[Task] = []
    taken: set[str] = set()
    for source, target, most, _ in net.constraints:
        if most < 0 and target != "Z" and not {source, target} & taken and is_pair(target, source):
            found.append(Task(named(target, source), target, source))
            taken |= {source, target}
    return found


def tasks_said(said: Said) -> list[Task]:
    """The tasks of a plan in sentences."""
    return [Task(name, name, f"{name}.end") for name, key in said.lines
            if key == "id" and name and said.lines.get((f"{name}.end", "id")) == said.lines[name, key]]


@dataclass(frozen=True)
class Length:
    """How long a task takes where a label holds, `least` to `most` ticks, and the id of the constraint that says the
    least."""

    task: Task
    id: int
    least: int
    most: int
    label: str

    def says(self) -> str:
        return f"{shown(self.task.name)} {ticks(self.most)} in place of {self.least}{where(self.label)}"


def lengths(net: Network, tasks: list[Task]) -> list[Length]:
    """The lengths of tasks that have a longest one, which is longer than the least."""
    ends = {(it.begin, it.end): it for it in tasks}
    most = {(source, target, written(literals(label))): value for source, target, value, label in net.constraints
            if (source, target) in ends}
    found = []
    for number, (source, target, value, label) in enumerate(net.constraints):
        longest = most.get((target, source, written(literals(label))), 0)
        if value <= 0 and (target, source) in ends and longest > -value:
            found.append(Length(ends[target, source], number, -value, longest, written(literals(label))))
    return found


def read_tasks(net: Network, text: str) -> list[Task]:
    """The tasks of a file, with a line `NAME;BEGIN;END` for each; END may be BEGIN, for a step with another name."""
    found = []
    for at, line in enumerate(text.split("\n"), 1):
        if not line.strip() or line.startswith("#"):
            continue
        parts = [printed(it.strip()) for it in line.split(";")]
        lacks = [shown(it) for it in parts[1:] if it not in net.places]
        if len(parts) != 3 or lacks:
            why = f"no step {' and '.join(lacks)}" if lacks else "a line is NAME;BEGIN;END"
            raise Stopped(2, f"line {at} of the tasks: {why}")
        found.append(Task(*parts))
    return found
