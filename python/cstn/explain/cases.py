"""The cases of a plan, by its tree: what is executed when, when each outcome is known, and until when a step can wait.

Until when a step can wait is what `follow` answers to `by` when all before it was done as planned and told. So it is
the float of one step alone: whoever takes it has none left behind it.
"""
import re
from collections.abc import Iterator
from dataclasses import dataclass, field

from .asking import Asked
from .names import printed, typed
from .networks import Network, written
from .shapes import Marks, Tree
from .tries import Live

# A session is told all steps of a case and asked for each; these are the constraints times the questions of all.
MOST_ASKED = 400000

NEXT = re.compile(r"next (\d+)(?: do ([^ ]+(?: [^ ]+)*?))?(?: wait ([A-Za-z]+))?")


@dataclass
class Case:
    """A way through a tree: the outcomes in the order in which they are asked, the moments of what is executed, those
    from which on outcomes are known, and for each step the last moment to which it can wait, where that was told."""

    outcomes: Marks
    moments: dict[str, int]
    known: dict[str, int]
    latest: dict[str, int] = field(default_factory=dict)

    @property
    def end(self) -> int:
        """The moment of the last step."""
        return max(self.moments.values(), default=0)

    @property
    def label(self) -> str:
        """The outcomes as a label."""
        return written(self.outcomes)

    def holds(self, marks: Marks) -> bool:
        """Whether a label holds in the case, where all of its letters are asked."""
        return all(self.outcomes.get(letter) == value for letter, value in marks.items())


def cases_of(net: Network, tree: Tree) -> list[Case]:
    """The cases of a tree, in its order: true before false."""
    return [Case(known, moments, {letter: moments[net.observers[letter]] + net.reaction(net.observers[letter])
                                  for letter in known})
            for known, moments in ways(tree, {}, {})]


def ways(items: Tree, known: Marks, moments: dict[str, int]) -> Iterator[tuple[Marks, dict[str, int]]]:
    """For each way through a tree the outcomes that were asked, and the moments of what is executed."""
    moments = dict(moments)
    for item in items:
        if "ask" in item:
            for value in ("true", "false"):
                yield from ways(item[value], {**known, item["ask"]: value == "true"}, moments)
            return
        moments.update(dict.fromkeys(item["names"], item["at"]))
    yield known, moments


def cases_by_labels(net: Network) -> list[Case]:
    """The cases by the labels alone, without moments: all time-points that are executed stand at 0."""
    return [Case(known, {name: 0 for name in net.names if net.is_executed(name, known)}, {})
            for known in outcomes_by_labels(net, {})]


def outcomes_by_labels(net: Network, known: Marks) -> Iterator[Marks]:
    """All outcomes that go on from some: one of each letter that somebody who is executed observes."""
    letter = next((it for it in net.observers if it not in known and net.is_told(it, known)), None)
    if letter is None:
        yield known
        return
    for value in (True, False):
        yield from outcomes_by_labels(net, {**known, letter: value})


def latest_of_all(asked: Asked) -> dict[str, int]:
    """Until when each step can wait before anything has happened, whatever is observed; nothing where that is much to
    ask, or is not answered."""
    net = asked.net
    if len(net.names) * len(net.constraints) > MOST_ASKED:
        return {}
    said = asked.answer_at("follow", live="by\n")[1]
    return {printed(name): int(at) for at, name in re.findall(r"^by (\d+) ([^ \n]+)$", said, re.M)}


def played(asked: Asked, outcomes: Marks) -> Case | None:
    """The case in which these letters come out so, and all others false, as `follow` names what is next: for a plan
    that has too many cases for a tree. None where the session did not come to its end."""
    case, said = Case({}, {"Z": 0}, {}), ""
    words = [asked.program, "follow", asked.path, "--deadline", str(asked.net.deadline)]
    with Live(words, [], 0) as live:
        for _ in range(len(asked.net.names) + len(asked.net.observers) + 1):
            said = live.say("next")
            found = NEXT.fullmatch(said)
            if not found:
                break
            moment = int(found[1])
            for letter in found[3] or "":
                case.outcomes[letter], case.known[letter] = outcomes.get(letter, False), moment
                live.say(f"saw {moment} {letter} {str(bool(case.outcomes[letter])).lower()}")
            if not found[3]:
                case.moments.update((printed(name), moment) for name in found[2].split(" "))
                live.say(f"did {moment} {found[2]}")
    return case if said == "done" else None


def told_lines(case: Case) -> list[tuple[int, int, str]]:
    """What a session is told in a case, as planned: each line with its moment and whether it is a step."""
    facts = [(case.known[letter], 0, f"saw {case.known[letter]} {letter} {str(value).lower()}")
             for letter, value in case.outcomes.items()]
    names: dict[int, list[str]] = {}
    for name, moment in case.moments.items():
        if name != "Z":
            names.setdefault(moment, []).append(name)
    steps = [(moment, 1, " ".join(map(typed, each))) for moment, each in names.items()]
    return sorted([*facts, *steps], key=lambda it: it[:2])


def ask_latest(asked: Asked, cases: list[Case]) -> bool:
    """Asks until when each step can wait in each case; whether that was not too much to ask. What two cases share until
    an outcome is told is asked once."""
    if sum(len(case.moments) for case in cases) * len(asked.net.constraints) > MOST_ASKED:
        return False
    found: dict[str, dict[str, int]] = {}
    for case in cases:
        ask_case(asked, case, found)
    return True


def ask_case(asked: Asked, case: Case, found: dict[str, dict[str, int]]) -> None:
    """Tells a session a case, and asks for each step right before it is done."""
    lines, told = [], ""
    for moment, is_step, line in told_lines(case):
        if is_step and told not in found:
            lines += [f"by {name}" for name in line.split(" ")]
        if is_step:
            line = f"did {moment} {line}"
        lines.append(line)
        told += f"{line}\n"
    said = asked.answer_at("follow", live="".join(f"{line}\n" for line in lines))[1].split("\n")[2:]
    told, latest = "", {}
    for line, answer in zip(lines, said):
        by = re.fullmatch(r"by (\d+) ([^ ]+)", answer)
        if line.startswith("by ") and by:
            latest[line[3:]] = int(by[1])
        if not line.startswith("by "):
            found.setdefault(told, latest)
            told, latest = told + f"{line}\n", {}
    told = ""
    for moment, is_step, line in told_lines(case):
        if is_step:
            case.latest.update({name: found[told][typed(name)] for name, at in case.moments.items()
                                if at == moment and typed(name) in found.get(told, {})})
            line = f"did {moment} {line}"
        told += f"{line}\n"
