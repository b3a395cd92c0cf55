"""What tests share: documents, patients that are drawn, and a comparison with the truth told in order."""
from __future__ import annotations

import json
import os
import random
import subprocess
import tempfile
import unittest
from dataclasses import dataclass
from pathlib import Path

from cstn.answers import Done, Next, Until, Verdict
from cstn.child import Child
from cstn.errors import NoProgram, Unavailable
from cstn.events import Deadline, Did, Event, Change, Saw, line_of
from cstn.names import printed
from cstn.plan import Plan
from cstn.program import find

TOP = Path(__file__).resolve().parent.parent
EXAMPLES = TOP.parent / "examples"
CLINIC = Plan.load(EXAMPLES / "clinical-pathway.graphml")
STROKE = Plan.load(EXAMPLES / "stroke.graphml")
EMERGENCY = Plan.load(EXAMPLES / "emergency-department.graphml")
PLANS = [CLINIC, STROKE, EMERGENCY]


def reads_plans() -> bool:
    """Whether the program reads plans in sentences: else it answers `words`."""
    return subprocess.run([find(), "plan", os.devnull], stdout=subprocess.DEVNULL, check=False).returncode != 2


def lacks(line: str) -> bool:
    """Whether the program refuses a line as being of no form."""
    child = Child(CLINIC.document)
    try:
        child.ask("did 5 Sample")
        child.ask(line)
        return False
    except (NoProgram, Unavailable):
        return True
    finally:
        child.close()


class Folder(unittest.TestCase):
    """A test with a folder of its own, which is gone after it."""

    def setUp(self) -> None:
        folder = tempfile.TemporaryDirectory(prefix="cstn")
        self.addCleanup(folder.cleanup)
        self.folder = folder.name

    def script(self, text: str) -> str:
        """The path of a stand-in for the program: a script of Python, which knows its version."""
        path = os.path.join(self.folder, f"stand-in{len(os.listdir(self.folder))}")
        begin = "#!/usr/bin/env python3\nimport os, sys, time\n" \
                "if sys.argv[1:] == ['--version']:\n    print('release 1\\nlines 1')\n    sys.exit()\n"
        Path(path).write_text(begin + text)
        os.chmod(path, 0o755)
        return path


@dataclass
class Patient:
    """What happened, in the order of time, and the messages that tell it, as they arrive: late, twice, out of order."""

    plan: Plan
    truth: list[Event]
    messages: list[Event]


def drawn(number: int) -> Patient:
    """A patient, by a number."""
    dice = random.Random(number)
    plan = PLANS[number % len(PLANS)]
    child = Child(plan.document)
    try:
        truth = happened(plan, child, dice)
    finally:
        child.close()
    arrivals: list[tuple[int, int, Event]] = []
    for place, event in enumerate(truth):
        moment = event.at if isinstance(event, Did | Saw) else 0
        assert isinstance(moment, int)
        late = dice.choice([0, 0, 0, 1, 5, 40]) if isinstance(event, Did | Saw) else 0
        arrivals.append((moment + late, place, event))
        if dice.random() < 0.3:
            arrivals.append((moment + late + dice.choice([0, 20]), place, event))
    arrivals.sort(key=lambda it: it[:2])
    return Patient(plan, truth, [event for _, _, event in arrivals])


def happened(plan: Plan, child: Child, dice: random.Random) -> list[Event]:
    """What happens to a patient: steps at the planned moment or later, outcomes by chance; limits are given up."""
    truth: list[Event] = []
    queue: list[tuple[int, int, str]] = []
    begun: set[str] = set()
    while isinstance(following := child.ask("next"), Next):
        for name in set(following.do) - begun:
            until = child.ask(f"by {printed(name)}")
            assert isinstance(until, Until)
            begun.add(name)
            queue.append((following.at + dice.choice([0, min(3, until.at - following.at)]), 0, name))
        if not queue:
            break
        queue.sort()
        at, kind, name = queue.pop(0)
        key = f"e{len(truth)}"
        event: Event = Saw(name, dice.random() < 0.5, at, key) if kind else Did(name, at, key)
        child.ask(line_of(event))
        truth.append(event)
        step = plan.by_name[name] if not kind else None
        if step is not None and step.observes:
            queue.append((at + dice.randint(1, step.reaction), 1, step.observes))
        truth += given_up(child, len(truth))
    assert isinstance(following, Done | Next), following
    return truth


def given_up(child: Child, place: int) -> list[Event]:
    """Edits until the plan can be carried out again."""
    edits: list[Event] = []
    while isinstance(child.ask("next"), Verdict):
        blamed = getattr(child.ask("blame"), "ids", ())
        key = f"e{place + len(edits)}"
        edits.append(Change(blamed[0], None, key) if blamed else Deadline(5000, key))
        child.ask(line_of(edits[-1]))
    return edits


def answers(child: Child, plan: Plan) -> list[str]:
    """What a process answers of a plan: the verdict, what is next, and until when each step can wait."""
    lines = ["next", *(f"by {printed(step.name)}" for step in plan.steps)]
    return [child.ask_text("check")[0].split(" ")[0], *(child.ask_text(line)[0] for line in lines)]


def answers_to(plan: Plan, lines: list[str]) -> list[str]:
    """What a process answers that was told these lines."""
    child = Child(plan.document)
    try:
        for line in lines:
            child.ask(line)
        return answers(child, plan)
    finally:
        child.close()


def as_json(events: list[Event]) -> str:
    from cstn.events import to_data
    return json.dumps([to_data(event) for event in events])
