"""The critical chain of a case: what its last step waits for, and what that waits for, back to the start."""
from dataclasses import dataclass

from ..explain.cases import Case
from ..explain.networks import Network, where
from .svg import readable


@dataclass(frozen=True)
class Link:
    """A step that cannot come earlier, since another one, `waits_for`, comes when it does; and why, in words."""

    name: str
    waits_for: str
    why: str


def chain_of(net: Network, case: Case) -> list[Link]:
    """The links from the last step of a case back to the start, or to a step that nothing holds back."""
    order = sorted(case.moments, key=lambda name: (case.moments[name], net.places[name]))
    links: list[Link] = []
    seen: set[str] = set()
    name = order[-1] if order else "Z"
    while name not in seen and name != "Z":
        seen.add(name)
        found = held_back(net, case, name, seen)
        if found is None:
            break
        links.append(found)
        name = found.waits_for
    return links


def names_of(links: list[Link]) -> list[str]:
    """The steps of a chain in the order in which they come, without the start."""
    names = [*(it.name for it in links), *(it.waits_for for it in links[-1:])]
    return [it for it in reversed(names) if it != "Z"]


def held_back(net: Network, case: Case, name: str, seen: set[str]) -> Link | None:
    """What a step waits for right up to its moment: a step some ticks before it, an outcome that its label asks for, a
    step at the same moment, or an outcome that comes then; or none."""
    found = [*waits_for_steps(net, case, name), *waits_for_outcomes(net, case, name)]
    near = [(rank, net.places[link.waits_for], link) for rank, link in found if link.waits_for not in seen]
    return min(near, key=lambda it: it[:2])[2] if near else None


def waits_for_steps(net: Network, case: Case, name: str) -> list[tuple[int, Link]]:
    """The constraints by which a step cannot come earlier, with how far each goes before others."""
    found = []
    for number in net.ties[name]:
        source, target, most, label = net.constraints[number]
        ends = source == name != target and target in case.moments and case.holds(net.forces[number])
        if not ends or case.moments[target] - case.moments[name] != most:
            continue
        after = f"at least {-most} after {readable(target)}" if most < 0 else f"not before {readable(target)}"
        if most > 0:
            after = f"at most {most} before {readable(target)}"
        if target == "Z":
            after = f"not before {-most}"
        found.append((0 if most < 0 else 2 if most == 0 else 4, Link(name, target, after + where(label))))
    return found


def waits_for_outcomes(net: Network, case: Case, name: str) -> list[tuple[int, Link]]:
    """The outcomes that are known just when a step is executed; those that its label asks for go before others."""
    found = []
    for letter, moment in case.known.items():
        observer = net.observers[letter]
        if moment == case.moments[name] and observer != name:
            asks = letter in net.executed[name]
            found.append((1 if asks else 3, Link(name, observer, f"the outcome of {letter} is known then")))
    return found
