"""A plan in sentences in the place of a document: the program writes its document, and its lines name what is told."""
import contextlib
import re

from ..said import said
from .asking import Asked, kept
from .names import raw
from .shapes import Data
from .spoken import Clock, Spoken

Told = tuple[int, Data, list[str]]


def is_plan(path: str) -> bool:
    return path.endswith(".plan")


def refused(asked: Asked, status: int, answer: str) -> Told:
    """Why there is no document: what `plan` answers, and the line that it names."""
    rows, at = asked.source.split(b"\n"), re.match(r"plan line (\d+) ", answer)
    lines = [answer.rstrip("\n")] if answer else []
    if at and int(at[1]) <= len(rows):
        lines.append(f"line {at[1]}: {raw(rows[int(at[1]) - 1])}")
    return status, {"answer": answer.strip(), "says": lines[1:]}, lines


def take_plan(asked: Asked, files: contextlib.ExitStack) -> Told | None:
    """Puts the document of a plan in its place, as a file among these, and keeps what its lines say; or why there is
    none."""
    status, document = asked.answer("plan", asked.path, *asked.option)
    if status:
        return refused(asked, status, document)
    asked.said = said(asked.source)
    asked.source, asked.path = document.encode(), files.enter_context(kept(document))
    Spoken.words = asked.said.words
    if Spoken.clock.start is None:
        Spoken.clock = Clock(asked.said.start)
    return None
