"""The network of a plan as a picture."""
import math

from ..explain.spoken import Spoken
from .graph import Arrow, Box, Line, arrows_of, boxes_of
from .layout import Layout, Point, Size, Way, laid_out
from .plans import Plan
from .svg import element, fitted, group, number, picture, readable, text_at, width

MOST_STEPS = 200
MOST_WIDE = 14
NAME, WORDS, LEAD = 13, 11, 14
WIDEST, MARGIN = 230, 20
INK, SOFT, RED, EDGE, FILL, TELLS = "#1f2933", "#52606d", "#c81e1e", "#7b8794", "#f5f7fa", "#fff3c4"

# Of each letter a colour, none of them red.
COLOURS = ("#2563eb", "#047857", "#7c3aed", "#0e7490", "#92400e", "#a21caf", "#4d7c0f", "#1e40af", "#0f766e", "#6d28d9")


def box_size(box: Box) -> Size:
    """How large a box is for its words."""
    wide = max([width(readable(box.name), NAME, True), *(width(it.says, WORDS, it.is_blamed) for it in box.lines)])
    return Size(min(wide, WIDEST) + 20, 26 + LEAD * len(box.lines))


def words_size(lines: list[Line]) -> Size | None:
    """How large the words of an arrow are."""
    if not lines:
        return None
    return Size(min(WIDEST, max(width(it.says, WORDS, it.is_blamed) for it in lines)) + 8, LEAD * len(lines) + 2)


def draw_box(box: Box, middle: Point, colour: str) -> str:
    """A step: an observer has its letter in a ring at its corner, in the colour of the arrows that ask for it."""
    size = box_size(box)
    left, top = middle.x - size.wide / 2, middle.y - size.high / 2
    blamed = any(it.is_blamed for it in box.lines)
    parts = [element("rect", x=left, y=top, width=size.wide, height=size.high, rx=11 if box.letter else 4,
                     fill=TELLS if box.letter else FILL, stroke=RED if blamed else colour or EDGE,
                     stroke_width=2 if blamed or box.letter else 1.2, class_="observer" if box.letter else "step")]
    name = fitted(readable(box.name), WIDEST, NAME, True)
    parts.append(text_at(middle.x, top + 17, name, NAME, anchor="middle", bold=True))
    for i, line in enumerate(box.lines):
        parts.append(text_at(middle.x, top + 17 + LEAD * (i + 1), fitted(line.says, WIDEST, WORDS), WORDS,
                             anchor="middle", fill=RED if line.is_blamed else SOFT, bold=line.is_blamed))
    return group(parts, "\n".join([readable(box.name), *(it.says for it in box.lines)]), class_="box")


def head(way: Way, colour: str) -> list[str]:
    """The head of an arrow."""
    if way.tip is None or not way.points:
        return []
    base = way.points[-1]
    x, y = way.tip.x - base.x, way.tip.y - base.y
    length = math.hypot(x, y) or 1
    side_x, side_y = -y / length * 3.8, x / length * 3.8
    points = " ".join(f"{number(round(a, 1))},{number(round(b, 1))}" for a, b in (
        (way.tip.x, way.tip.y), (base.x + side_x, base.y + side_y), (base.x - side_x, base.y - side_y)))
    return [element("polygon", points=points, fill=colour)]


def draw_arrow(arrow: Arrow, way: Way, colour: str) -> tuple[str, str]:
    """An arrow, and its words, which stand above all arrows."""
    points = [f"{number(round(it.x, 1))},{number(round(it.y, 1))}" for it in way.points]
    dash = "5 3" if arrow.loose else None
    line = element("path", d=f"M{points[0]}C{' '.join(points[1:])}", fill="none", stroke=colour,
                   stroke_width=2.2 if arrow.is_blamed else 1.2, stroke_dasharray=dash)
    kind = "arrow blamed" if arrow.is_blamed else "arrow"
    says = f"{readable(arrow.then)} after {readable(arrow.first)}"
    told = "\n".join([says, *(it.says for it in arrow.lines)])
    size, parts = words_size(arrow.lines), []
    if way.words and size:
        top = way.words.y - size.high / 2
        parts.append(element("rect", x=way.words.x - size.wide / 2, y=top, width=size.wide, height=size.high - 2,
                             fill="#ffffff", fill_opacity=0.85, class_="paper"))
        for i, it in enumerate(arrow.lines):
            parts.append(text_at(way.words.x, top + 11.5 + LEAD * i, fitted(it.says, WIDEST, WORDS), WORDS,
                                 anchor="middle", fill=RED if it.is_blamed else colour, bold=it.is_blamed))
    return group([line, *head(way, colour)], told, class_=kind), group(parts, told) if parts else ""


def colour_of(arrow: Arrow, colours: dict[str, str]) -> str:
    """Red for what is to blame; the colour of the one letter that an arrow has to do with; else grey."""
    if arrow.is_blamed:
        return RED
    letters = {arrow.asks} if arrow.asks else arrow.letters
    return colours[min(letters)] if len(letters) == 1 else SOFT if letters else EDGE


def legend(plan: Plan, boxes: list[Box], left_out: int) -> list[str]:
    """What the shapes mean, in lines of words."""
    lines = [f"An arrow leads to the step that waits, and says how many {plan.clock.unit}. Dashed: it may also come "
             "before. Moments count from the start."]
    letter = min((it.letter for it in boxes if it.letter), default="")
    if letter:
        lines.append("Yellow: what is seen there has a letter and a colour, and the steps that wait for it have its "
                     f"outcome at their arrow, as {Spoken.word(letter)} true.")
    if plan.blame:
        lines.append("The plan cannot be carried out. Red: these cannot be met together.")
    if left_out:
        lines.append(f"{left_out} steps are left out: {MOST_STEPS} are drawn.")
    return lines


def draw_network(plan: Plan) -> str:
    """The picture of a network: what waits for what."""
    boxes = boxes_of(plan)
    drawn = boxes[:MOST_STEPS]
    places = {box.name: at for at, box in enumerate(drawn)}
    arrows = [it for it in arrows_of(plan) if it.first in places and it.then in places]
    layout = laid_out([box_size(it) for it in drawn], [
        (places[it.first], places[it.then], words_size(it.lines), it.loose) for it in arrows], len(drawn) <= MOST_WIDE)
    letters = sorted(plan.net.observers)
    colours = {letter: COLOURS[at % len(COLOURS)] for at, letter in enumerate(letters)}
    lines, words = zip(*(draw_arrow(arrow, way, colour_of(arrow, colours))
                         for arrow, way in zip(arrows, layout.ways))) if arrows else ((), ())
    shapes = [*lines, *(draw_box(box, middle, colours.get(box.letter, "")) for box, middle in zip(drawn, layout.boxes)),
              *filter(None, words)]
    return framed(plan, layout, shapes, legend(plan, boxes, len(boxes) - len(drawn)))


def framed(plan: Plan, layout: Layout, shapes: list[str], told: list[str]) -> str:
    """The picture with its title and its legend."""
    top = 44 + 16 * len(told)
    parts = [text_at(MARGIN, 30, plan.title, 19, bold=True)]
    for i, says in enumerate(told):
        is_no = says.startswith("The plan cannot")
        parts.append(text_at(MARGIN, 50 + 16 * i, says, 11, fill=RED if is_no else SOFT, bold=is_no))
    parts.append(element("g", "\n" + "\n".join(shapes) + "\n", transform=f"translate({MARGIN} {top})"))
    wide = max([layout.size.wide, width(plan.title, 19, True), *(width(it, 11) for it in told)]) + 2 * MARGIN
    return picture(parts, round(wide), round(layout.size.high + top + MARGIN), f"{plan.title}: what waits for what")
