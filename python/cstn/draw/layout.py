"""Where Graphviz puts boxes, arrows and their words. It is told their sizes, so that its fonts do not matter."""
import json
import subprocess
from dataclasses import dataclass
from typing import Any

from ..explain.stopped import Stopped

INCH = 72
SECONDS = 300


@dataclass(frozen=True)
class Size:
    wide: float
    high: float


@dataclass(frozen=True)
class Point:
    x: float
    y: float


@dataclass(frozen=True)
class Way:
    """An arrow: the points of its curve, its tip, and the middle of its words."""

    points: list[Point]
    tip: Point | None
    words: Point | None


@dataclass(frozen=True)
class Layout:
    size: Size
    boxes: list[Point]
    ways: list[Way]


def laid_out(boxes: list[Size], arrows: list[tuple[int, int, Size | None, bool]], is_wide: bool) -> Layout:
    """Lays out boxes by their sizes, and arrows by the places of their boxes, with the sizes of their words and whether
    they are loose: then they do not say which comes first."""
    found = json.loads(ask_graphviz(written(boxes, arrows, is_wide)))
    right, top = (float(it) for it in found["bb"].split(",")[2:])
    objects = {int(it["name"][1:]): it for it in found.get("objects", [])}
    middles = [point(objects[at]["pos"], top) for at in range(len(boxes))]
    edges = {int(it["id"]): it for it in found.get("edges", [])}
    return Layout(Size(right, top), middles, [way(edges[at], top) for at in range(len(arrows))])


def written(boxes: list[Size], arrows: list[tuple[int, int, Size | None, bool]], is_wide: bool) -> str:
    """The graph in the language of Graphviz; no name of a document is in it."""
    lines = ["digraph {", f'rankdir={"LR" if is_wide else "TB"}; nodesep=0.25; ranksep={0.5 if is_wide else 0.38};',
             'node [shape=box, fixedsize=true, label=""];']
    for at, size in enumerate(boxes):
        lines.append(f"n{at} [width={size.wide / INCH:.4f}, height={size.high / INCH:.4f}];")
    for at, (first, then, words, is_loose) in enumerate(arrows):
        more = ", constraint=false" if is_loose and first == then else ", weight=1" if is_loose else ", weight=3"
        if words:
            more += (', label=<<table border="0" cellborder="0" cellspacing="0" cellpadding="0" fixedsize="true" '
                     f'width="{words.wide:.0f}" height="{words.high:.0f}"><tr><td></td></tr></table>>')
        lines.append(f'n{first} -> n{then} [id="{at}"{more}];')
    return "\n".join([*lines, "}"]) + "\n"


def ask_graphviz(text: str) -> bytes:
    """What `dot` says of a graph."""
    try:
        done = subprocess.run(["dot", "-Tjson"], input=text.encode(), capture_output=True, timeout=SECONDS, check=False)
    except FileNotFoundError as error:
        raise Stopped(2, "the network is laid out by Graphviz, and there is no `dot` on the PATH") from error
    except subprocess.TimeoutExpired as error:
        raise Stopped(2, f"Graphviz did not lay the network out within {SECONDS} seconds") from error
    if done.returncode:
        raise Stopped(2, f"Graphviz failed: {done.stderr.decode(errors='replace').strip()[:200]}")
    return done.stdout


def point(text: str, top: float) -> Point:
    """A point of Graphviz, whose y goes up."""
    x, y = (float(it) for it in text.split(","))
    return Point(x, top - y)


def way(edge: dict[str, Any], top: float) -> Way:
    """The curve of an arrow."""
    parts = edge["pos"].split(" ")
    tips = [point(it[2:], top) for it in parts if it.startswith("e,")]
    points = [point(it, top) for it in parts if not it.startswith(("e,", "s,"))]
    return Way(points, tips[0] if tips else None, point(edge["lp"], top) if "lp" in edge else None)
