"""Steps by cases as a table of values between semicolons."""
import re

from ..explain.networks import written
from ..explain.shapes import Marks
from ..explain.spoken import Spoken
from ..explain.steps import first_moments
from .plans import Plan


def cell(text: str) -> str:
    """A value as a cell; one that a sheet would take for a formula stands behind an apostrophe."""
    if re.match(r"[=+@\t\r-]", text):
        text = f"'{text}"
    return '"' + text.replace('"', '""') + '"' if re.search(r'[";\r\n]', text) else text


def head(outcomes: Marks) -> str:
    """The head of a case: its outcomes as `--case` takes them, with the words of the plan where it has some."""
    if outcomes.keys().isdisjoint(Spoken.words):
        return written(outcomes) or "always"
    return " and ".join(f"{'' if value else 'not '}{Spoken.word(letter)}" for letter, value in sorted(outcomes.items()))


def write_table(plan: Plan, places: list[int]) -> str:
    """A row for each step, with its moment in each case; then for each case until when the step can wait."""
    cases = [plan.cases[at] for at in places]
    labels = [head(it.outcomes) for it in cases]
    lines = [["step", *labels, *(f"{it} until" for it in labels)]]
    for name in plan.net.in_order(first_moments(plan.net, cases)):
        moments = [plan.clock.says(it.moments[name]) if name in it.moments else "" for it in cases]
        latest = [plan.clock.says(it.latest[name]) if name in it.latest else "" for it in cases]
        lines.append([name, *moments, *latest])
    return "".join(";".join(map(cell, line)) + "\n" for line in lines)
