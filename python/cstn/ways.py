"""How a plan goes on, by case: a tree as the program writes it, as its ways."""
from __future__ import annotations

from collections.abc import Iterator, Mapping, Set
from dataclasses import dataclass

from cstn.errors import Unavailable
from cstn.names import plain


@dataclass(frozen=True)
class Way:
    """A case of what is left: the outcomes that it supposes, in the order in which they are asked, and the least moment
    of each step that is done in it."""

    outcomes: Mapping[str, bool]
    moments: Mapping[str, int]

    def without(self, steps: Set[str]) -> Way:
        """The same, less these steps."""
        return Way(self.outcomes, {name: at for name, at in self.moments.items() if name not in steps})


def ways(lines: Iterator[str], outcomes: Mapping[str, bool], moments: Mapping[str, int]) -> Iterator[Way]:
    """The ways of a tree, true before false. Raises `Unavailable` where the lines are none."""
    found = dict(moments)
    for line in lines:
        match line.split(" "):
            case ["done"]:
                yield Way(outcomes, found)
                return
            case ["ask", letter]:
                for value in (True, False):
                    yield from ways(lines, {**outcomes, letter: value}, found)
                return
            case ["at", at, *names] if at.isdigit() and names:
                found |= {plain(name): int(at) for name in names}
            case _:
                break
    raise Unavailable("`cases` was answered by no tree")
