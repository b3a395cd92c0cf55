"""The cases of a plan as panels: rows are tasks and steps in the order in which they come, against time."""
from dataclasses import dataclass, field

from ..explain.cases import Case
from ..explain.networks import written
from ..explain.spoken import Spoken
from ..explain.tasks import Task
from .chains import Link, chain_of, names_of
from .plans import Plan
from .svg import BOLD, element, fitted, group, picture, readable, text_at, width

MOST_CASES = 64
MOST_STEPS = 200
ROW, CHART, NAMES, MARGIN, BEHIND = 20, 760, 200, 16, 60
DONE_AT = "done\u00a0at\u00a0"
INK, SOFT, GRID = "#1f2933", "#616e7c", "#e4e7eb"
BAR, RESULT, HOT, WAIT, DONE, NOW = "#4c78a8", "#c7d7ea", "#d97706", "#7b8794", "#52606d", "#c81e1e"


@dataclass(frozen=True)
class Scale:
    """Where moments stand: from `left` on, up to `end` on the right."""

    left: float
    end: int
    wide: float = CHART

    @property
    def room(self) -> float:
        """How wide a line of words may be without making the picture wider."""
        return self.left + self.wide + BEHIND - MARGIN

    def at(self, moment: int) -> float:
        return self.left + self.wide * moment / max(1, self.end)


@dataclass
class Panel:
    """What a panel shows of a case: its title, the chain that the end waits for, what was done, and what time it is."""

    case: Case
    title: str
    links: list[Link]
    done: set[str] = field(default_factory=set)
    now: int | None = None
    number: int = 1

    @property
    def chain(self) -> dict[str, str]:
        """The steps of the chain, each with why it comes when it does."""
        return dict.fromkeys(names_of(self.links), "") | {it.name: f", and it comes {it.why}" for it in self.links}

    @property
    def end(self) -> int:
        """The last moment that the panel shows."""
        moments = [self.case.end, self.now or 0, *self.case.latest.values(), *self.case.known.values()]
        return max(moments)


@dataclass(frozen=True)
class Row:
    """A task or a step of a case; a step begins and ends with itself."""

    name: str
    begin: str
    end: str
    first: int
    last: int


def rows_of(plan: Plan, case: Case) -> list[Row]:
    """The rows of a case, in the order in which they begin; at one moment those that wait behind those they wait
    for."""
    moments, found = case.moments, []
    tasks = [it for it in plan.tasks if it.begin in moments and it.end in moments]
    in_tasks = {name for it in tasks for name in (it.begin, it.end)}
    single = [Task(name, name, name) for name in moments if name not in in_tasks and name != "Z"]
    for task in [*tasks, *single]:
        found.append(Row(task.name, task.begin, task.end, moments[task.begin], moments[task.end]))
    level: dict[str, int] = {}
    for first in {it.first for it in found}:
        level |= plan.net.levels(it.begin for it in found if it.first == first)
    place = plan.net.places | {it.begin: len(plan.net.names) for it in found if it.begin not in plan.net.places}
    return sorted(found, key=lambda it: (it.first, level[it.begin], it.last, place[it.begin]))


def outcomes_in_words(case: Case) -> str:
    """The outcomes of a case, as in `b true, o false`."""
    return ", ".join(f"{Spoken.letter(it)} {str(value).lower()}" for it, value in sorted(case.outcomes.items()))


def moments_in_words(plan: Plan, case: Case, row: Row) -> str:
    """When a row begins and ends, and until when it can wait."""
    says = plan.clock.says(row.first)
    if row.begin != row.end:
        says += f" to {plan.clock.says(row.last)}"
    latest = case.latest.get(row.end)
    if latest is not None:
        says += f", until {plan.clock.says(latest)}" if latest > row.last else ", no later"
    return says


def told_of(plan: Plan, panel: Panel, row: Row, chain: dict[str, str]) -> str:
    """What is shown of a row where one points at it."""
    case, lines = panel.case, []
    for name in dict.fromkeys((row.begin, row.end)):
        line = f"{readable(name)}: {'done at ' if name in panel.done else ''}{plan.clock.says(case.moments[name])}"
        if name in case.latest:
            line += f", can wait until {plan.clock.says(case.latest[name])}"
        if name in chain:
            line += f"; the end waits for it{chain[name]}"
        lines.append(line)
    return "\n".join(lines)


def whisker(scale: Scale, y: float, first: int, latest: int | None) -> list[str]:
    """How long a step can wait, as a line with an end."""
    if latest is None or latest <= first:
        return []
    begin, end = scale.at(first), scale.at(latest)
    way = f"M{begin:.1f} {y:.1f}H{end:.1f}M{end:.1f} {y - 2.5:.1f}V{y + 2.5:.1f}"
    return [element("path", d=way, fill="none", stroke=WAIT, stroke_width=1.2, class_="wait")]


def result(scale: Scale, y: float, letter: str, value: bool, first: int, known: int) -> list[str]:
    """What an observer tells, from when it was executed to when that is known, and what it is."""
    begin = scale.at(first)
    end = max(scale.at(known), begin + 15)
    fill, ink = (INK, "#ffffff") if value else ("#ffffff", INK)
    bar = element("rect", x=begin, y=y - 3, width=end - begin, height=6, fill=RESULT, class_="result")
    ring = element("circle", cx=end, cy=y, r=7.5, fill=fill, stroke=INK, stroke_width=1.2, class_=f"is-{value}".lower())
    return [bar, ring, text_at(end, y + 3.8, letter, 10.5, anchor="middle", bold=True, fill=ink)]


def colour_of(panel: Panel, row: Row, chain: dict[str, str]) -> tuple[str, str]:
    """The colour of a row, and its class."""
    if row.end in panel.done:
        return DONE, "done"
    return (HOT, "hot") if {row.begin, row.end} & chain.keys() else (BAR, "bar")


def draw_bar(panel: Panel, row: Row, scale: Scale, y: float, fill: str, kind: str) -> tuple[list[str], float]:
    """A task or a step with how long it can wait, and how far that goes to the right."""
    case, begin, end = panel.case, scale.at(row.first), scale.at(row.last)
    right = max([end, *(scale.at(case.latest[it]) for it in (row.begin, row.end) if it in case.latest)])
    parts = whisker(scale, y + 17.5, row.last, case.latest.get(row.end))
    if row.begin == row.end:
        way = f"M{begin:.1f} {y + ROW / 2 - 6:.1f}l6 6l-6 6l-6 -6z"
        return [*parts, element("path", d=way, fill=fill, class_=kind)], right
    parts += whisker(scale, y + 2.5, row.first, case.latest.get(row.begin))
    parts.append(element("rect", x=begin, y=y + 5, width=max(2, end - begin), height=10, rx=2, fill=fill, class_=kind))
    if row.begin in panel.done and row.end not in panel.done and panel.now is not None:
        so_far = scale.at(min(row.last, panel.now)) - begin
        parts.append(element("rect", x=begin, y=y + 5, width=max(2, so_far), height=10, rx=2, fill=DONE, class_="done"))
    return parts, right


def draw_row(plan: Plan, panel: Panel, row: Row, scale: Scale, y: float) -> tuple[str, float]:
    """A row, and how far it goes to the right."""
    case, chain, middle = panel.case, panel.chain, y + ROW / 2
    fill, kind = colour_of(panel, row, chain)
    name = fitted(readable(row.name), NAMES, 12, kind == "hot")
    ink = SOFT if kind == "done" else INK
    parts = [text_at(scale.left - 10, middle + 4, name, anchor="end", bold=kind == "hot", fill=ink)]
    bars, right = draw_bar(panel, row, scale, y, fill, kind)
    for it in dict.fromkeys((row.begin, row.end)):
        letter = plan.net.observed.get(it, "")
        if letter in case.known:
            parts += result(scale, middle, letter, bool(case.outcomes[letter]), case.moments[it], case.known[letter])
            right = max(right, scale.at(case.known[letter]) + 8, scale.at(case.moments[it]) + 23)
    says = moments_in_words(plan, case, row)
    parts += [*bars, element("rect", x=right + 10, y=y + 4, width=width(says, 11) + 4, height=12, fill="#ffffff",
                             class_="paper"), text_at(right + 12, middle + 4, says, 11, fill=SOFT)]
    return group(parts, told_of(plan, panel, row, chain), class_="row"), right + 12 + width(says, 11)


def draw_axis(plan: Plan, scale: Scale, top: float, bottom: float) -> list[str]:
    """Lines at round moments, with their names above, and the deadline where the panel reaches it."""
    parts = []
    for moment in plan.clock.marks(scale.end, 12):
        x = scale.at(moment)
        parts.append(element("path", d=f"M{x:.1f} {top:.1f}V{bottom:.1f}", stroke=GRID, class_="grid"))
        parts.append(text_at(x, top - 5, plan.clock.says(moment), 11, anchor="middle", fill=SOFT))
    if plan.net.deadline <= scale.end:
        x = scale.at(plan.net.deadline)
        parts.append(element("path", d=f"M{x:.1f} {top:.1f}V{bottom:.1f}", stroke=SOFT, stroke_dasharray="4 3"))
    return parts


def draw_links(case: Case, links: list[Link], places: dict[str, float], scale: Scale) -> list[str]:
    """The critical chain: from each step that is waited for to the one that waits."""
    parts = []
    for link in links:
        if link.name in places and link.waits_for in places:
            first, last = scale.at(case.moments[link.waits_for]), scale.at(case.moments[link.name])
            way = f"M{first:.1f} {places[link.waits_for]:.1f}V{places[link.name]:.1f}H{last:.1f}"
            parts.append(element("path", d=way, fill="none", stroke=HOT, stroke_opacity=0.55, stroke_width=1.5,
                                 class_="link"))
    return parts


def wrapped(text: str, room: float, size: float) -> list[str]:
    """A text in lines that fit."""
    lines = [""]
    for word in text.split(" "):
        longer = f"{lines[-1]} {word}".strip()
        lines = [*lines[:-1], longer] if width(longer, size) <= room else [*lines, word]
    return lines


def panel_of(plan: Plan, at: int) -> Panel:
    """The panel of the case at a place."""
    case = plan.cases[at]
    which = f"Case {at + 1} of {len(plan.cases)}: " if len(plan.cases) > 1 else ""
    says = f"{which}{outcomes_in_words(case)}" if case.outcomes else "The plan"
    return Panel(case, f"{says}; {DONE_AT}{plan.clock.says(case.end)}", chain_of(plan.net, case), number=at + 1)


def draw_panel(plan: Plan, panel: Panel, scale: Scale, top: float) -> tuple[list[str], float, float]:
    """A panel: its shapes, where it ends, and how far it goes to the right."""
    rows, y = rows_of(plan, panel.case), top + 18
    parts: list[str] = []
    for place, line in enumerate(wrapped(panel.title, scale.room, 15 * BOLD)):
        y += 19 if place else 0
        parts.append(text_at(MARGIN, y, line, 15, bold=True))
    told = ", ".join(map(readable, names_of(panel.links)))
    for line in wrapped(f"The end waits for: {told}.", scale.left + CHART, 11) if told else []:
        y += 15
        parts.append(text_at(MARGIN, y, line, 11, fill=SOFT))
    y += 26
    drawn, bottom = rows[:MOST_STEPS], y + ROW * min(len(rows), MOST_STEPS)
    parts += draw_axis(plan, scale, y, bottom)
    places = {name: y + ROW * (i + 0.5) for i, row in enumerate(drawn) for name in (row.begin, row.end)}
    parts += draw_links(panel.case, panel.links, places, scale)
    shapes = [draw_row(plan, panel, row, scale, y + ROW * i) for i, row in enumerate(drawn)]
    parts += draw_now(plan, panel.now, scale, y, bottom) if panel.now is not None else []
    parts += [shape for shape, _ in shapes]
    if len(rows) > len(drawn):
        bottom += ROW
        parts.append(text_at(MARGIN, bottom - 5, f"The last {len(rows) - len(drawn)} rows are left out.", 12))
    right = max((far for _, far in shapes), default=0.0)
    return [group(parts, class_="case", data_case=str(panel.number))], bottom + 14, right


def draw_now(plan: Plan, now: int, scale: Scale, top: float, bottom: float) -> list[str]:
    """A line at the moment that it is, with its time below."""
    x = scale.at(now)
    return [element("path", d=f"M{x:.1f} {top:.1f}V{bottom + 4:.1f}", stroke=NOW, stroke_width=2, class_="now"),
            text_at(x, bottom + 16, f"now {plan.clock.says(now)}", 12, anchor="middle", bold=True, fill=NOW)]


def draw_overview(plan: Plan, places: list[int], scale: Scale, top: float) -> tuple[list[str], float]:
    """How long each case takes, with the latest marked."""
    latest = max(plan.cases[at].end for at in places)
    y = top + 18
    says = f"{len(plan.cases)} cases, the latest of which is done at {plan.clock.says(latest)}"
    parts = [text_at(MARGIN, y, says, 15, bold=True)]
    y += 30
    parts += draw_axis(plan, scale, y, y + ROW * len(places))
    for at in places:
        case = plan.cases[at]
        is_hot = case.end == latest
        name = f"{at + 1}: {written(case.outcomes) or 'always'}"
        parts += [text_at(scale.left - 10, y + 14, fitted(name, NAMES, 12, is_hot), anchor="end", bold=is_hot),
                  element("rect", x=scale.left, y=y + 5, width=scale.at(case.end) - scale.left, height=10, rx=2,
                          fill=HOT if is_hot else BAR, class_="hot" if is_hot else "bar"),
                  text_at(scale.at(case.end) + 6, y + 14, plan.clock.says(case.end), 11, fill=SOFT)]
        y += ROW
    return [group(parts, class_="overview")], y + 14


def draw_legend(top: float, has_done: bool) -> list[str]:
    """What the shapes mean, in one line."""
    scale, y, x = Scale(0, 100, 100), top + 12, float(MARGIN)
    parts = []
    items = [([element("rect", x=x, y=y - 5, width=24, height=10, rx=2, fill=BAR)], 24, "task"),
             ([element("path", d=f"M6 {y - 6:.1f}l6 6l-6 6l-6 -6z", fill=BAR)], 12, "step"),
             (whisker(scale, y, 0, 28), 28, "can wait until then"),
             (result(scale, y, "p", True, 0, 24), 32, "comes true"),
             (result(scale, y, "p", False, 0, 24), 32, "comes false"),
             ([element("rect", x=0, y=y - 5, width=24, height=10, rx=2, fill=HOT)], 24, "the end waits for it")]
    if has_done:
        items.append(([element("rect", x=0, y=y - 5, width=24, height=10, rx=2, fill=DONE)], 24, "done"))
    for i, (shapes, wide, says) in enumerate(items):
        parts.append(element("g", "".join(shapes), transform=f"translate({x if i else 0:.1f} 0)"))
        parts.append(text_at(x + wide + 6, y + 4, says, 11, fill=SOFT))
        x += wide + width(says, 11) + 26
    return [group(parts, class_="legend")]


def draw_panels(plan: Plan, panels: list[Panel], told: list[str], overview: list[int]) -> str:
    """A picture of some panels, one below the other, with lines of words above them."""
    names = [it.name for panel in panels for it in rows_of(plan, panel.case)]
    named = max([width(readable(it), 12, True) for it in names] + [60])
    scale = Scale(MARGIN + 10 + min(NAMES, named), max(it.end for it in panels))
    has_done = any(it.done for it in panels)
    parts = [text_at(MARGIN, 30, plan.title, 19, bold=True), *draw_legend(42, has_done)]
    y, right = 72.0, max(scale.left + CHART + BEHIND, MARGIN + width(plan.title, 19, True))
    for says in told:
        is_no = says.startswith("No:")
        says = says.removeprefix("No: ") if is_no and says != told[0] else says
        for line in wrapped(says, scale.room, 12 * BOLD):
            parts.append(text_at(MARGIN, y + 8, line, 12, bold=True, fill=NOW if is_no else INK))
            right, y = max(right, MARGIN + width(line, 12, True)), y + 18
    if len(overview) > 1:
        more, y = draw_overview(plan, overview, scale, y)
        parts += more
    for panel in panels:
        more, y, far = draw_panel(plan, panel, scale, y)
        parts, right = parts + more, max(right, far)
    return picture(parts, round(right + MARGIN), round(y + (8 if has_done else 0)), f"{plan.title}: cases")


def draw_cases(plan: Plan, places: list[int]) -> str:
    """The picture of some cases, by their places: an overview where they are several, and a panel for each."""
    drawn = places[:MOST_CASES]
    left_out = len(places) - len(drawn)
    told = [plan.left_out] if plan.left_out else []
    told += [f"{left_out} of {len(places)} cases are left out: `--case` draws one."] if left_out else []
    return draw_panels(plan, [panel_of(plan, at) for at in drawn], told, drawn)
