"""A strategy tree in words, and what breaks at a line of one."""
from collections.abc import Iterator

from .names import printed, shown
from .networks import Network, constraint, literals, ticks
from .shapes import Marks, Tree
from .spoken import Spoken

# A tree has this many lines at most, times what is looked at for each.
MOST_OF_A_LOOK = 20000
MOST_IN_WORDS = 200000


def size(net: Network) -> int:
    """What a tree may have to say: the time-points and the constraints, in each way through it."""
    return (len(net.names) + len(net.constraints)) << len(net.observers)


def tree_of(net: Network, lines: list[str]) -> Tree:
    """The lines of a tree as data: what is executed at each moment and what is left out; then what is asked, with a
    tree for each outcome. An outcome is not asked for where nobody who is executed would tell it."""
    return branch_of(net, iter(lines), {})


def branch_of(net: Network, lines: Iterator[str], known: Marks) -> Tree:
    items: Tree = []
    for line in lines:
        parts = line.split(" ")
        if parts[0] == "done":
            break
        if parts[0] == "ask":
            behind = {value: branch_of(net, lines, known | {parts[1]: value}) for value in (True, False)}
            asked = [{"ask": parts[1], "true": behind[True], "false": behind[False]}]
            items += asked if net.is_told(parts[1], known) else behind[False]
            break
        told = [printed(name) for name in parts[2:]]
        own = net.in_order({name: 0 for name in told if name in net.places and net.is_executed(name, known)})
        before = {name: net.unknown(name, known) for name in own}
        names = [*own, *(name for name in told if name not in net.places)]
        items.append({"at": int(parts[1]), "names": names, "left_out": [it for it in told if it not in set(names)],
                      "before": {name: letters for name, letters in before.items() if letters}})
    return items


def tree_in_words(items: Tree, depth: int = 0) -> list[str]:
    """A tree in words, each outcome deeper than what is asked."""
    words, indent = [], "  " * depth
    for item in items:
        if "ask" in item:
            letter = Spoken.letter(item["ask"])
            for value in ("true", "false"):
                words += [f"{indent}If {letter} is {value}:", *tree_in_words(item[value], depth + 1)]
            continue
        names = [shown(name) + unknown_in_words(item["before"].get(name, [])) for name in item["names"]]
        left_out = ", ".join(shown(name) for name in item["left_out"])
        words.append(f"{indent}at {Spoken.moment(item['at'])}: {', '.join(names) or 'nothing; left out: ' + left_out}")
    return words


def unknown_in_words(letters: list[str]) -> str:
    words = " and ".join(map(Spoken.letter, letters))
    return f" (before {words} {'is' if len(letters) == 1 else 'are'} known)" if letters else ""


class Branch:
    """What stands above a line of a tree: moments, outcomes, the last moment, and the letters asked since."""

    def __init__(self, moments: dict[str, int], known: dict[str, bool], last: int | None, asked: list[str]) -> None:
        self.moments, self.known, self.last, self.asked = moments, known, last, asked

    def behind(self, parts: list[str]) -> "list[Branch]":
        """The branches behind a line, the first one last."""
        if parts[0] == "at":
            self.moments.update({printed(name): int(parts[1]) for name in parts[2:]})
            return [Branch(self.moments, self.known, int(parts[1]), [])]
        values = (False, True) if parts[0] == "ask" else ()
        return [Branch(dict(self.moments), self.known | {parts[1]: value}, self.last, [*self.asked, parts[1]])
                for value in values]


def what_breaks(net: Network, lines: list[str], number: int) -> list[str]:
    """Why the line of this number, counted from 1, breaks in a tree of the network, in words; nothing where that isn't
    found."""
    branches = [Branch({}, {}, None, [])]
    for line in lines[1 : number - 1]:
        branches += branches.pop().behind(line.split(" "))
    above, parts = branches.pop(), lines[number - 1].split(" ")
    if parts[0] == "done":
        return [f"{shown(name)} is not executed above" for name in net.names if name not in above.moments]
    if parts[0] == "ask":
        if parts[1] in above.known:
            return [f"{parts[1]} is asked a second time"]
        stands = net.observers.get(parts[1]) in above.moments
        return [] if stands else [f"no time-point that observes {parts[1]} stands above"]
    return what_breaks_at(net, above, int(parts[1]), [printed(name) for name in parts[2:]])


def what_breaks_at(net: Network, above: Branch, moment: int, names: list[str]) -> list[str]:
    """Why time-points cannot be executed at a moment behind what stands above."""
    says, twice = [], [name for at, name in enumerate(names) if name in above.moments or name in names[:at]]
    if above.last is not None and moment <= above.last:
        says.append(f"{moment} is not above {above.last}, the moment before it")
    says += [f"{shown(name)} is executed a second time" for name in twice]
    says += [f"{shown(name)} is at {net.limit(name)} at the latest" for name in names if moment > net.limit(name)]
    for letter in above.asked:
        observer = net.observers[letter]
        known = above.moments[observer] + net.reaction(observer)
        if moment < known:
            later = ticks(net.reaction(observer))
            says.append(f"{Spoken.letter(letter)} is not known before {known}, {later} after {shown(observer)}")
    return says + unmet(net, above, above.moments | dict.fromkeys(names, moment), set(names))


def unmet(net: Network, above: Branch, moments: dict[str, int], names: set[str]) -> list[str]:
    """The constraints of some time-points, among these moments, that are not met where what is asked above holds."""
    says = []
    for number, source, target, most, label in net.lowered:
        if not {source, target} & names or not {source, target} <= moments.keys():
            continue
        holds = all(above.known.get(letter, value) == value for letter, value in literals(label).items())
        if holds and moments[target] - moments[source] > most:
            which = "its label" if number is None else f"constraint {net.called(number)}"
            says.append(f"{which} is not met: {constraint(source, target, most, label)}")
    return says
