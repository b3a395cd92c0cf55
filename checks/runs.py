"""What the scripts of checks/ and deciders/ share: documents, calls of the built program, and the count of cases.

Each is called as NAME [PROGRAM]; PROGRAM is crates/cstn/out/cstn where none is named.
"""
import contextlib
import multiprocessing
import os
import re
import subprocess
import sys
import tempfile
import threading
import time
from collections import Counter
from concurrent.futures import ProcessPoolExecutor
from urllib.parse import unquote

TOP = os.path.dirname(os.path.dirname(os.path.abspath(__file__)))
NAME = os.path.basename(sys.argv[0])
PROGRAM = os.path.abspath(sys.argv[1] if len(sys.argv) > 1 else os.path.join(TOP, "crates", "cstn", "out", "cstn"))

GOOD, BAD, WORDS, DOCUMENT, FULL, READ_FAULT, WRITE_FAULT, MEMORY, UNFINISHED, SCRIPT, WIDE = range(11)
REFUSED_WORDS = 11
SECONDS = 60

TOLD = {"passed": 0, "failed": 0}


def check(name, found, wanted):
    """Counts a case, and tells it where it went otherwise."""
    if found == wanted:
        TOLD["passed"] += 1
        return
    TOLD["failed"] += 1

    def short(it):
        text = repr(it)
        return text if len(text) < 400 else text[:200] + " .. " + text[-150:]

    print(f"{NAME}: {name}: found {short(found)}, wanted {short(wanted)}")


# Documents.


def compact(nodes, edges, more=""):
    """The document of nodes, as `P:p`, `P:p:3` with a reaction or `X:::p` with a label, and edges, as `X->Z -5 p`, in one line."""
    text = ["<graphml><graph>"]
    for node in nodes:
        name, *data = node.split(":")
        keys = [f'<data key="{key}">{value}</data>' for key, value in zip(("Obs", "Reaction", "Label"), data) if value]
        text.append(f'<node id="{name}">{"".join(keys)}</node>' if keys else f'<node id="{name}"/>')
    for edge in edges:
        ends, value, *label = edge.split(" ")
        source, target = ends.split("->")
        text.append(f'<edge source="{source}" target="{target}"><data key="LabeledValues">{{({value}, {label[0] if label else "⊡"})}}</data></edge>')
    return "".join(text) + more + "</graph></graphml>"


TWO_POINTS = compact(["Z", "X"], ["X->Z -5"])
BRANCH_NODES = ["Z", "P:p", "X"]
BRANCH_EDGES = ["X->Z -10 p", "Z->X 3 !p"]
BRANCH = compact(BRANCH_NODES, BRANCH_EDGES)
LAST_TICK = compact(BRANCH_NODES, BRANCH_EDGES + ["P->Z -2"])
LATE = compact(BRANCH_NODES, BRANCH_EDGES + ["P->Z -3"])
CROSSED = compact(["Z", "P:p", "Q:q"], ["P->Z -5 q", "Q->Z -5 p"])
UNKNOWN_MARK = compact(["Z", "P:p", "Q:q", "X"], ["X->Z -9 pq", "Q->Z -7 !p", "P->Z -7", "Z->X 7 !p!q"])
LATE_PROOF = "no 7\n0 base Z 0 -\n1 chain 0 0 X 10 p\n2 chain 2 0 P 3 -\n3 wait 2 1 X 4 -\n4 chain 1 3 Z 1 !p\n"
LETTERS = [chr(65 + i) for i in range(26)] + [chr(97 + i) for i in range(26)]


# Runs.


class Folder:
    """A folder for the files of one case after the other."""

    def __init__(self, path):
        self.path = path

    def put(self, name, text):
        path = os.path.join(self.path, name)
        with open(path, "wb") as file:
            file.write(text if isinstance(text, bytes) else text.encode())
        return path

    def at(self, name):
        return os.path.join(self.path, name)


def run(words, live=b"", **how):
    """The status and the bytes that the program writes."""
    live = live if isinstance(live, bytes) else live.encode()
    done = subprocess.run([PROGRAM, *words], input=live, stdout=subprocess.PIPE, stderr=subprocess.DEVNULL, timeout=SECONDS, **how)
    return done.returncode, done.stdout


def case(name, words, status, wrote, live=b"", **how):
    check(name, run(words, live, **how), (status, wrote if isinstance(wrote, bytes) else wrote.encode()))


def first_line(found):
    status, wrote = found
    return status, wrote.split(b"\n", 1)[0]


def carried_out(words, outcomes, observers, reactions):
    """The moments at which a run names the time-points, where these are the outcomes, each told when its reaction is over."""
    child = subprocess.Popen([PROGRAM, *words], stdin=subprocess.PIPE, stdout=subprocess.PIPE, stderr=subprocess.DEVNULL, text=True, encoding="utf-8")
    stop = threading.Timer(SECONDS, child.kill)
    stop.start()
    found, told = {}, set()

    def answer(line):
        with contextlib.suppress(BrokenPipeError):
            child.stdin.write(line + "\n")
            child.stdin.flush()
        return child.stdout.readline().split()

    child.stdout.readline()
    while (due := answer("due"))[:1] == ["due"]:
        for letter in sorted(outcomes.keys() - told):
            if observers[letter] in found and found[observers[letter]] + reactions[letter] <= int(due[1]):
                told.add(letter)
                answer(f"see {letter} {str(outcomes[letter]).lower()}")
        at, moment, *names = answer(f"moment {due[1]}")
        found |= {unquote(it): int(moment) for it in names if at == "at"}
    child.communicate()
    stop.cancel()
    return found if due == ["done"] and child.returncode == GOOD else (due, child.returncode, found)


# Of each example the further words, how many time-points it has, and the least deadline with which it can be carried out: of the small
# ones as added up by hand, of the night and of the workflow, which is a no, by deciders/tables.py alone.
EXAMPLES = {
    "business-process.graphml": ([], 6, 11),
    "clinical-pathway.graphml": ([], 5, 195),
    "emergency-department.graphml": ([], 40, 195),
    "insurance-claim.graphml": (["--deadline", "48"], 8, 34),
    "lift-repair.graphml": ([], 11, 245),
    "mission.graphml": ([], 6, 81),
    "night.graphml": ([], 52, 460),
    "stroke.graphml": ([], 5, 150),
    "test-and-visit.graphml": ([], 3, 10),
    "workflow.graphml": ([], 200, 117),
}


def examples():
    """The name, the path and the further words of each example."""
    for name in sorted(os.listdir(os.path.join(TOP, "examples"))):
        if name.endswith(".graphml"):
            yield name, os.path.join(TOP, "examples", name), EXAMPLES[name][0]


def plain_examples():
    """The name and the path of each example without a label on a time-point."""
    for name, path, _ in examples():
        with open(path, encoding="utf-8") as file:
            if not re.search(r'<data key="Label">[^<]', file.read()):
                yield name, path


# How many trials a processor takes at a time.
SHARE = 500


def share_of(trial, numbers):
    """In a process of its own: what the trials of these numbers came to, and the cases that they counted, by their times."""
    TOLD.update(passed=0, failed=0)
    with tempfile.TemporaryDirectory() as path:
        return Counter(trial(Folder(path), number) for number in numbers), TOLD


def side_by_side(trial, trials):
    """Calls a function of a module with a folder and each number below `trials`, on all processors, and counts its cases.

    Answers what the calls answered, with the times of each answer.
    """
    outcomes = Counter()
    with ProcessPoolExecutor(mp_context=multiprocessing.get_context("fork")) as processors:
        shares = [range(first, min(first + SHARE, trials)) for first in range(0, trials, SHARE)]
        for times, told in processors.map(share_of, [trial] * len(shares), shares):
            outcomes += times
            for how, cases in told.items():
                TOLD[how] += cases
    return outcomes


def count(tables, needs_program=True, named=()):
    """Gives each table, or each named one, a folder of its own, tells its seconds, and says last how many cases passed."""
    if needs_program and not os.path.isfile(PROGRAM):
        print(f"{NAME}: there is no program {PROGRAM}")
        print(f"{NAME}: 0 passed, 1 failed")
        return 1
    names = [table.__name__ for table in tables]
    for name in set(named).difference(names):
        check("a table", name, f"one of {', '.join(names)}")
    spent = {}
    for table in [table for table in tables if not named or table.__name__ in named]:
        with tempfile.TemporaryDirectory() as path:
            os.chmod(path, 0o755)
            begun = time.monotonic()
            try:
                table(Folder(path))
            except (OSError, subprocess.TimeoutExpired, ValueError) as error:
                check(f"the table {table.__name__}", str(error), "")
            spent[table.__name__] = time.monotonic() - begun
    print(f"{NAME}: seconds: " + ", ".join(f"{name} {seconds:.1f}" for name, seconds in spent.items()))
    print(f"{NAME}: {TOLD['passed']} passed, {TOLD['failed']} failed")
    return 1 if TOLD["failed"] else 0
