"""All of a plan as one page, to be read without a network and in print: its cases, its network, its steps and its
constraints in words."""
import base64
import hashlib
from collections.abc import Iterable
from importlib.resources import files

from ..explain.networks import constraint, counts_where, where
from ..explain.spoken import Spoken
from .gantt import MOST_CASES, draw_cases
from .network import draw_network
from .plans import Blame, Plan
from .svg import element, escaped, readable


def resource(name: str) -> str:
    """The text of a file of this package."""
    return files(__package__ or "cstn.draw").joinpath(name).read_text(encoding="utf-8")


def digest(text: str) -> str:
    """A text as a page says that it may stand in it."""
    return "'sha256-" + base64.b64encode(hashlib.sha256(text.encode()).digest()).decode() + "'"


def paragraph(text: str, class_: str | None = None) -> str:
    return element("p", escaped(text), class_=class_)


def verdict_of(plan: Plan) -> str:
    """Whether the plan can be carried out, in words."""
    by = f"by its deadline, {plan.clock.says(plan.net.deadline)}"
    if plan.verdict.startswith("yes"):
        return paragraph(f"Yes: the plan can be carried out {by}, whatever is observed.")
    if plan.verdict.startswith("no"):
        return paragraph(f"No: the plan cannot be carried out {by}.", "no")
    return paragraph(plan.why, "no")


def counts_of(plan: Plan) -> str:
    """How much there is of the plan."""
    says = f"{len(plan.net.names)} steps with the start Z, {len(plan.net.constraints)} constraints"
    return f"{says}, {len(plan.cases)} cases." if len(plan.cases) > 1 else f"{says}."


def cases_of(plan: Plan, places: list[int]) -> list[str]:
    """The section of some cases, by their places: a chooser, and a picture of each."""
    if not plan.cases:
        return [paragraph(plan.why)]
    latest = max(places, key=lambda at: (plan.cases[at].end, -at))
    drawn = places[:MOST_CASES]
    options = "".join(element("option", escaped(f"{at + 1}: {where(plan.cases[at].label)[5:] or 'the plan'}; done at "
                                                f"{plan.clock.says(plan.cases[at].end)}")) for at in drawn)
    parts = []
    if len(drawn) > 1:
        chooser = element("select", options, id="choice", data_first=str(drawn.index(latest) if latest in drawn else 0),
                          aria_label="Case")
        before = element("button", "previous", id="before", type="button")
        behind = element("button", "next", id="behind", type="button")
        parts.append(element("p", f"{before} {chooser} {behind}", class_="choose", hidden=""))
    if len(places) > len(drawn):
        parts.append(paragraph(f"{len(places) - len(drawn)} of {len(plan.cases)} cases are left out: "
                               "./cstn draw cases FILE --case CASE draws one."))
    elif len(plan.cases) > len(drawn):
        are = "is" if len(drawn) == 1 else "are"
        parts.append(paragraph(f"{len(drawn)} of {len(plan.cases)} cases {are} here: the others were not asked for, or "
                               "what was told rules them out."))
    for at in drawn:
        parts.append(element("section", scrolled(draw_cases(plan, [at])), class_="case", id=f"case-{at + 1}"))
    return parts


def scrolled(svg: str) -> str:
    return element("div", svg.rstrip("\n"), class_="scroll")


def row(cells: Iterable[str], tag: str = "td", search: bool = False) -> str:
    inner = "".join(element(tag, escaped(it) or "&#160;") for it in cells)
    return element("tr", inner, data_search="" if search else None)


def steps_of(plan: Plan, places: list[int]) -> str:
    """The table of steps: where each is executed, what it tells, and when it comes and how long it can wait in some
    cases, by their places."""
    head = row(("Step", "Executed", "Tells", "Planned", "Can wait at least"), "th")
    rows = []
    first = {name: min((it.moments[name] for it in plan.cases if name in it.moments), default=0)
             for name in plan.net.names}
    cases = [plan.cases[at] for at in places]
    for name in sorted(plan.net.names, key=lambda it: (first[it], plan.net.places[it])):
        moments = sorted({it.moments[name] for it in cases if name in it.moments})
        lefts = [it.latest[name] - it.moments[name] for it in cases if name in it.latest]
        letter, label = plan.net.observed.get(name), plan.net.labels.get(name, "")
        tells = f"{Spoken.letter(letter)}, {plan.clock.lasts(plan.net.reaction(name))} later" if letter else ""
        says = " to ".join(plan.clock.says(it) for it in dict.fromkeys([*moments[:1], *moments[-1:]]))
        rows.append(row((readable(name), f"only{where(label)[1:]}" if label else "always", tells, says,
                         plan.clock.lasts(min(lefts)) if lefts else ""), search=True))
    return element("table", element("thead", head) + element("tbody", "\n" + "\n".join(rows) + "\n"))


def constraints_of(plan: Plan) -> str:
    """The constraints in words, with those that are to blame marked."""
    blame, items = plan.blame or Blame(), []
    for number, parts in enumerate(plan.net.constraints):
        says = f"{plan.net.called(number)}: {constraint(*parts)}{counts_where(plan.net, number)}"
        says = says.replace("%20", " ")
        items.append(element("li", escaped(says), class_="no" if number in blame.constraints else None, data_search=""))
    return element("ul", "\n" + "\n".join(items) + "\n")


def write_page(plan: Plan, places: list[int], looks: list[str], now: str) -> str:
    """The page, of some cases by their places, with a picture of a session or none."""
    style, script = resource("page.css"), resource("page.js")
    policy = f"default-src 'none'; style-src {digest(style)}; script-src {digest(script)}"
    links = [("cases", "Cases"), ("network", "Network"), ("steps", "Steps"), ("constraints", "Constraints")]
    links = [("now", "Now"), *links] if now else links
    search = element("input", id="search", type="search", placeholder="Search a step", aria_label="Search a step")
    nav = element("nav", "".join(element("a", says, href=f"#{name}") for name, says in links) + search
                  + '<span id="count" role="status"></span>', hidden="")
    body = [element("h1", escaped(plan.title)), verdict_of(plan), paragraph(counts_of(plan)),
            nav, *([heading("now", "Now"), scrolled(now)] if now else []),
            heading("cases", "Cases"), *cases_of(plan, places),
            heading("network", "What waits for what"), scrolled(draw_network(plan)),
            heading("steps", "Steps"), element("div", steps_of(plan, places), class_="scroll"),
            heading("constraints", "Constraints"), constraints_of(plan)]
    if looks:
        body += [heading("looks", "Worth a second look"), *(paragraph(it) for it in looks)]
    head = [f'<meta charset="utf-8">\n<meta http-equiv="Content-Security-Policy" content="{policy}">',
            '<meta name="viewport" content="width=device-width, initial-scale=1">',
            element("title", escaped(plan.title)), f"<style>{style}</style>"]
    return "\n".join(["<!DOCTYPE html>", '<html lang="en">', "<head>", *head, "</head>", "<body>", *body,
                      f"<script>{script}</script>", "</body>", "</html>"]) + "\n"


def heading(name: str, says: str) -> str:
    return element("h2", escaped(says), id=name)
