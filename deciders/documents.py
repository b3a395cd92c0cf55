"""Labelled networks with their names: the faults for which they are refused, and their canonical documents."""
import re
from typing import NamedTuple

MOST_POINTS = 1_024
MOST_CONSTRAINTS = 16_384
MOST_DEADLINE = 1_000_000


class Point(NamedTuple):
    """A time-point: its name, the letter that it observes, its reaction, and which letters its label has, and how."""

    name: str
    observes: str | None
    reaction: int
    label: dict[str, bool]


class Network(NamedTuple):
    """Time-points, of which the first is Z, and constraints: from, to, the most, and the label."""

    deadline: int
    points: list[Point]
    constraints: list[tuple[int, int, int, dict[str, bool]]]


def in_print(name: str) -> str:
    """The printed form of a name."""
    plain = "".join(chr(code) for code in range(0x21, 0x7F) if code != ord("%"))
    return "".join(it if it in plain or ord(it) > 0x7F else f"%{ord(it):02X}" for it in name)


def completed(network: Network, label: set[tuple[str, bool]]) -> set[tuple[str, bool]]:
    """A label with those of the observers of its letters, of theirs, and so on."""
    grown = set(label)
    for point in network.points:
        if point.observes in {letter for letter, _ in label}:
            grown |= point.label.items()
    return grown if grown == label else completed(network, grown)


def is_plain(label: set[tuple[str, bool]]) -> bool:
    return len({letter for letter, _ in label}) == len(label)


def lowered_count(network: Network, own: list[set[tuple[str, bool]]]) -> int:
    """How many constraints the network has without labels on time-points."""
    full = [completed(network, own[source] | own[target] | set(label.items()))
            for source, target, _, label in network.constraints]
    return sum(map(is_plain, full)) + sum(map(len, own))


def fault(network: Network) -> str | None:
    """The first thing that is wrong with a network, as it is told."""
    points, constraints = network.points, network.constraints
    observed: dict[str, str] = {}
    if len(points) > MOST_POINTS:
        return "N1"
    if len(constraints) > MOST_CONSTRAINTS:
        return "N3"
    if network.deadline > MOST_DEADLINE:
        return f"N4 {network.deadline}"
    letters = {point.observes for point in points}
    for *_, label in constraints:
        if unknown := sorted(label.keys() - letters):
            return f"N6 {unknown[0]}"
    for point in points:
        if point.observes in observed:
            return f"N7 {point.observes} {in_print(observed[point.observes])} {in_print(point.name)}"
        if point.observes:
            observed[point.observes] = point.name
    return fault_of_labels(network)


def fault_of_labels(network: Network) -> str | None:
    """The first thing that is wrong with the labels of time-points."""
    points, letters = network.points, {point.observes for point in network.points}
    if points[0].label:
        return "L1"
    for point in points:
        if unknown := sorted(point.label.keys() - letters):
            return f"L3 {in_print(point.name)} {unknown[0]}"
    own = [completed(network, set(point.label.items())) for point in points]
    for point, label in zip(points, own):
        if point.observes in {letter for letter, _ in label}:
            return f"L4 {in_print(point.name)}"
    for point, label in zip(points, own):
        if not is_plain(label):
            return f"L5 {in_print(point.name)}"
    return "L6" if lowered_count(network, own) > MOST_CONSTRAINTS else None


# Canonical documents.

HEAD = '<?xml version="1.0" encoding="UTF-8"?>\n<graphml>\n<graph edgedefault="directed">\n'
FOOT = "</graph>\n</graphml>\n"
ESCAPES = {"&": "&amp;", "<": "&lt;", ">": "&gt;", '"': "&quot;"}
ESCAPES |= {chr(code): f"&#{code};" for code in [*range(1, 32), 127]}


def escaped(name: str) -> str:
    return "".join(ESCAPES.get(letter, letter) for letter in name)


def marks(label: dict[str, bool]) -> str:
    return "".join(("" if holds else "¬") + letter for letter, holds in sorted(label.items()))


def node(point: Point) -> str:
    reaction = str(point.reaction) if point.observes and point.reaction != 1 else ""
    keys = ("Obs", point.observes or ""), ("Reaction", reaction), ("Label", marks(point.label))
    data = "".join(f'<data key="{key}">{value}</data>' for key, value in keys if value)
    return f'<node id="{escaped(point.name)}">{data}</node>\n' if data else f'<node id="{escaped(point.name)}"/>\n'


def as_document(network: Network) -> bytes:
    """The canonical document of a network."""
    names = [escaped(point.name) for point in network.points]
    edges = [f'<edge source="{names[source]}" target="{names[target]}"><data key="Type">requirement</data>'
             f'<data key="LabeledValues">{{({most}, {marks(label) or "⊡"})}}</data></edge>\n'
             for source, target, most, label in network.constraints]
    deadline = f'<data key="Deadline">{network.deadline}</data>\n'
    return "".join([HEAD, deadline, *map(node, network.points), *edges, FOOT]).encode()


LINE = re.compile(r'<data key="Deadline">([0-9]+)</data>'
                  r'|<node id="([^"]*)"(?:/>|>(?:<data key="Obs">(.)</data>)?(?:<data key="Reaction">([0-9]+)</data>)?'
                  r'(?:<data key="Label">([^<]*)</data>)?</node>)'
                  r'|<edge source="([^"]*)" target="([^"]*)"><data key="Type">requirement</data>'
                  r'<data key="LabeledValues">\{\((-?[0-9]+), ([^)]*)\)\}</data></edge>')
NAMED = {it: letter for letter, it in ESCAPES.items()}


def label_in(text: str) -> dict[str, bool]:
    return {letter: not sign for sign, letter in re.findall("(¬?)([A-Za-z])", text)}


def named_in(text: str) -> str:
    return re.sub("&[^;]*;", lambda it: NAMED[it[0]], text)


def of_document(data: bytes, deadline: int | None = None) -> Network:
    """The network of a canonical document."""
    points: list[Point] = []
    constraints: list[tuple[int, int, int, dict[str, bool]]] = []
    numbers: dict[str, int] = {}
    for line in data.decode().removeprefix(HEAD).removesuffix(FOOT).split("\n")[:-1]:
        ticks, name, letter, reaction, label, source, target, most, mine = LINE.fullmatch(line).groups()
        if ticks:
            deadline = int(ticks) if deadline is None else deadline
        elif source is None:
            numbers[name] = len(points)
            points.append(Point(named_in(name), letter, int(reaction or 1), label_in(label or "")))
        else:
            constraints.append((numbers[source], numbers[target], int(most), label_in(mine)))
    return Network(deadline, points, constraints)
