"""Steps of one moment in an order in which they can be done: who waits for another stands behind it."""
from __future__ import annotations

from collections.abc import Iterable


def levels(names: Iterable[str], waits: Iterable[tuple[str, str]]) -> dict[str, int]:
    """For each of some steps how many of them, one behind another, it waits for, by pairs of a step and one that it
    does not come before. Two that wait for each other come together, and wait for neither."""
    level = dict.fromkeys(names, 0)
    pairs = {(one, other) for one, other in waits if one != other and one in level and other in level}
    waiting = sorted(it for it in pairs if it[::-1] not in pairs)
    for _ in level:
        later = [(one, level[other] + 1) for one, other in waiting if level[other] >= level[one]]
        if not later:
            break
        level.update(later)
    return level
