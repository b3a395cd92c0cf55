"""What is drawn of a plan: its network, its verdict, its cases with how long each step can wait, and its tasks."""
import re
from dataclasses import dataclass, field

from ..explain.asking import Asked, ids_of
from ..explain.cases import Case, ask_latest, cases_of, played
from ..explain.documents import Reader
from ..explain.networks import Network, literals, written
from ..explain.refusals import tell_refused
from ..explain.refutations import Refutation
from ..explain.shapes import Marks
from ..explain.spoken import Clock, Spoken
from ..explain.stopped import Stopped
from ..explain.tasks import Task, tasks_of
from ..explain.trees import MOST_IN_WORDS, size


LABEL = re.compile("([¬!]?[A-Za-z])+")


@dataclass
class Blame:
    """What cannot be met together: constraints by their ids, labels by their time-points and the observers that these
    wait for, and observers by their reactions."""

    constraints: set[int] = field(default_factory=set)
    labels: set[tuple[str, str]] = field(default_factory=set)
    reactions: set[str] = field(default_factory=set)


@dataclass
class Plan:
    """A plan that is drawn. Without a case where it is a no, or has too many of them, which `why` says; `left_out` says
    what its pictures lack."""

    net: Network
    title: str
    clock: Clock
    verdict: str
    cases: list[Case] = field(default_factory=list)
    tasks: list[Task] = field(default_factory=list)
    blame: Blame | None = None
    why: str = ""
    left_out: str = ""


def read_network(asked: Asked) -> None:
    """Reads the network of a document as the program understands it; or says why it is refused."""
    status, saved = asked.answer("save", asked.path, *asked.option)
    if status == 3:
        reader = Reader(asked.source)
        raise Stopped(3, "\n".join([saved.strip(), *tell_refused(saved, reader)]))
    if status:
        raise Stopped(status, saved.strip() or "the document cannot be read")
    reader = Reader(asked.source)
    asked.saved, asked.net = saved, Network(saved)
    found = asked.said or reader
    asked.net.rows, asked.net.lines = found.rows, found.lines
    asked.net.says = asked.said.says if asked.said else []
    asked.net.is_canonical = asked.is_canonical()


def read_plan(asked: Asked, title: str, clock: Clock, tasks: list[Task] | None, with_cases: bool) -> Plan:
    """Asks the program what is drawn of a document."""
    status, text = asked.answer_at("check")
    plan = Plan(asked.net, title, clock, text.split("\n")[0])
    plan.tasks = tasks_of(asked.net) if tasks is None else tasks
    if status == 1:
        plan.blame = read_blame(asked, text)
        plan.why = "The plan cannot be carried out, so it has no moments."
    elif status:
        plan.why = f"Whether the plan can be carried out is not known: the program says {plan.verdict}."
    elif size(asked.net) > MOST_IN_WORDS:
        plan.why = (f"The plan has up to {1 << len(asked.net.observers)} cases, too many for a picture: "
                    "`--case LABEL` draws one, in which all letters that LABEL does not name are false.")
    elif with_cases:
        plan.cases = cases_of(asked.net, asked.tree() or [])
    return plan


def label_of(text: str) -> Marks | None:
    """The letters that a text names, each with whether it is to be true, by themselves or by their words, as in
    `damage and not leak` or `d!l`; or none."""
    letters = {word: letter for letter, word in Spoken.words.items()}
    found: Marks = {}
    value = True
    for part in text.replace(",", " ").split():
        name = part.lstrip("¬!")
        marks: Marks = {letters[name]: name == part} if name in letters else literals(part)
        if part == "not":
            value = not value
        elif part != "and":
            if name not in letters and not LABEL.fullmatch(part) or not value and len(marks) > 1:
                return None
            found |= {letter: marked is value for letter, marked in marks.items()}
            value = True
    return found if value else None


def add_case(asked: Asked, plan: Plan, wanted: str | None) -> None:
    """The one case in which a label holds, and what it does not name is false, of a plan with too many cases."""
    is_wide = plan.verdict.startswith("yes") and not plan.cases
    marks = label_of(wanted or "")
    if is_wide and marks:
        case = played(asked, marks)
        plan.cases = [case] if case else []


def add_latest(asked: Asked, plan: Plan, places: list[int]) -> None:
    """Asks how long each step can wait in some cases, by their places."""
    if not ask_latest(asked, [plan.cases[at] for at in places]):
        plan.left_out = "How long each step can wait is left out, since that is too much to ask."


def read_blame(asked: Asked, text: str) -> Blame:
    """What a set of `conflict` names, or the steps of the no, where there is no set."""
    status, said = asked.answer_plain("conflict", cap=asked.cap(len(asked.net.constraints) + 2))
    refutation = Refutation(asked.net, said if status == 1 and not asked.replayed(said) else text)
    refutation.in_words(None)
    uses = refutation.uses()
    waits = {(it["from"], it["to"]) for it in uses if it["constraint"] is None}
    return Blame(ids_of(uses), waits, set(refutation.reactions()))


def chosen(cases: list[Case], wanted: str | None) -> list[int]:
    """The places of the cases that are wanted: all, the latest one, that of a number from 1 on, or those in which a
    label holds."""
    places = list(range(len(cases)))
    if wanted is None or not places:
        return places
    if wanted in ("latest", "worst"):
        return [max(places, key=lambda at: (cases[at].end, -at))]
    if re.fullmatch(r"[1-9]\d{0,5}", wanted):
        found = [int(wanted) - 1] if int(wanted) <= len(places) else []
    else:
        marks = label_of(wanted)
        found = [at for at in places if marks and cases[at].holds(marks)]
    if not found:
        labels = ", ".join(written(it.outcomes) or "-" for it in cases[:64])
        words = "".join(f"; {letter} is {word}" for letter, word in sorted(Spoken.words.items()))
        raise Stopped(2, f"there is no such case; the cases are: {labels}{words}")
    return found
