"""Draws a plan: what waits for what, and when each step comes in each case.

    ./cstn draw network FILE
    ./cstn draw cases FILE [--case CASE]
    ./cstn draw now FILE SESSION [--case CASE]
    ./cstn draw --csv FILE [--case CASE]
    ./cstn draw --html FILE [SESSION] [--case CASE]

with the options --deadline N, --start HH:MM, --tick SECONDS and --tasks TASKS. docs/draw.md says what each form draws.
"""
import contextlib
import io
import os
import re
import sys
from dataclasses import dataclass, field

from ..explain.asking import Asked, read_once, read_text
from ..explain.looks import looks
from ..explain.names import harmless
from ..explain.plans import is_plan, take_plan
from ..explain.shapes import Marks
from ..explain.spoken import Clock, Spoken, read_clock
from ..explain.stopped import Stopped
from ..explain.tasks import Task, read_tasks
from .gantt import draw_cases
from .network import draw_network
from .now import draw_now
from .page import write_page
from .plans import Plan, add_case, add_latest, chosen, read_network, read_plan
from .sessions import Session, read_session
from .table import write_table

# Of each form how many files it takes, at least and at most.
FORMS = {"network": (1, 1), "cases": (1, 1), "now": (2, 2), "--csv": (1, 1), "--html": (1, 2)}
VALUES = ("--case", "--deadline", "--start", "--tick", "--tasks")


@dataclass
class Request:
    """What is asked for: the form, its files, and the options with their values."""

    form: str
    files: list[str]
    options: dict[str, str] = field(default_factory=dict)


def parsed(words: list[str]) -> Request:
    """The request that words make."""
    if not words or words[0] not in FORMS:
        raise Stopped(2, (__doc__ or "").strip())
    request, left = Request(words[0], []), words[1:]
    while left:
        word = left.pop(0)
        if word in VALUES and left:
            request.options[word] = left.pop(0)
        elif word.startswith("-") and word != "-" or word in VALUES:
            raise Stopped(2, (__doc__ or "").strip())
        else:
            request.files.append(word)
    least, most = FORMS[request.form]
    if not least <= len(request.files) <= most:
        raise Stopped(2, (__doc__ or "").strip())
    if request.form == "network" and "--case" in request.options:
        raise Stopped(2, "--case goes with cases, now, --csv and --html.")
    if not re.fullmatch(r"\d{1,7}", request.options.get("--deadline", "0")):
        raise Stopped(2, "N is a number from 0 to 1000000, in ticks")
    return request


def tasks_named(asked: Asked, path: str | None) -> list[Task] | None:
    """The tasks of a file, or none where none is named."""
    if path is None:
        return None
    return read_tasks(asked.net, read_text(path, "TASKS"))


def title_of(path: str) -> str:
    """The name of a document without its ending and its folder."""
    name = os.path.basename(path)
    bare = name.removesuffix(".graphml").removesuffix(".plan")
    return re.sub(r"[-_]", " ", bare).capitalize() if "." in name else name


def told(request: Request, asked: Asked, plan: Plan) -> Session:
    """The session that is named."""
    return read_session(asked, read_text(request.files[1], "SESSION"), plan.clock)


def page_of(request: Request, asked: Asked, plan: Plan) -> str:
    """The page, with the session where one is named: of the cases those that are wanted, else those that the session
    leaves."""
    session, wanted = told(request, asked, plan) if len(request.files) > 1 else None, request.options.get("--case")
    add_case(asked, plan, wanted)
    places = chosen(plan.cases, wanted)
    if session and wanted is None:
        places = [at for at in places if agrees(plan.cases[at].outcomes, session.heard.known)] or places
    add_latest(asked, plan, places)
    hints = [line for _, _, lines in looks(asked, plan.verdict) for line in lines]
    now = draw_now(plan, session, chosen(session.cases, "latest")) if session else ""
    return write_page(plan, places, hints, now)


def agrees(outcomes: Marks, known: Marks) -> bool:
    """Whether no outcome of a case was told otherwise."""
    return all(outcomes.get(letter, value) == value for letter, value in known.items())


def drawn(request: Request, asked: Asked, plan: Plan) -> str:
    """The picture, table or page that is asked for."""
    if request.form == "network":
        return draw_network(plan)
    if request.form == "now":
        session = told(request, asked, plan)
        return draw_now(plan, session, chosen(session.cases, request.options.get("--case", "latest")))
    if request.form == "--html":
        return page_of(request, asked, plan)
    add_case(asked, plan, request.options.get("--case"))
    if not plan.cases:
        raise Stopped(1, plan.why)
    places = chosen(plan.cases, request.options.get("--case"))
    add_latest(asked, plan, places)
    return write_table(plan, places) if request.form == "--csv" else draw_cases(plan, places)


def clock_of_plan(asked: Asked, files: contextlib.ExitStack) -> Clock:
    """Puts the document of a plan in sentences in its place; the clock of the options, or else that of the plan."""
    if refused := take_plan(asked, files):
        raise Stopped(refused[0], "\n".join(refused[2]))
    return Spoken.clock


def main(words: list[str]) -> str:
    """What is written for the words."""
    request, Spoken.words = parsed(words), {}
    clock: Clock = read_clock(request.options.get("--start"), request.options.get("--tick"))
    Spoken.clock = clock
    deadline = request.options.get("--deadline")
    with contextlib.ExitStack() as files:
        source, path = files.enter_context(read_once(request.files[0]))
        asked = Asked(path, ["--deadline", deadline] if deadline else [])
        asked.source = source
        if is_plan(request.files[0]):
            clock = clock_of_plan(asked, files)
        read_network(asked)
        tasks = tasks_named(asked, request.options.get("--tasks"))
        plan = read_plan(asked, title_of(request.files[0]), clock, tasks, request.form not in ("network", "now"))
        written = drawn(request, asked, plan)
    return written


def run(words: list[str]) -> int:
    """Calls the command by its words, and answers the status with which it ends."""
    try:
        text = main(words)
        if isinstance(sys.stdout, io.TextIOWrapper):
            sys.stdout.reconfigure(encoding="utf-8", newline="\n")
        print(text, end="", flush=True)
        return 0
    except Stopped as stopped:
        print("\n".join(map(harmless, str(stopped).split("\n"))), file=sys.stderr)
        return stopped.status
    except BrokenPipeError:
        os.dup2(os.open(os.devnull, os.O_WRONLY), 1)
        return 1
