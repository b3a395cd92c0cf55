"""A second opinion on what further questions to a plan that is carried out are answered, from the definitions alone.

It shares nothing with the program. Each answer that is a moment, a value or a deadline is found by trying each one in turn whether
some table of moments continues the history then; none is halved for. Whether some table does, is asked of the least moments of
deciders/continuations.py; that these tell it, is tried over all tables there are, of plans that are small enough to write all down.
Loads, caps, digests and documents are no moments, and are not answered here.
"""
import copy
import dataclasses
import itertools
import re

from continuations import (GREATEST, NEVER, Constraint, Course, History, blamed, drawn_label, drawn_plan, least_table, told_next, waits_until,
                           what_is_next, written)

MARKS = 8
NUMBER = r"(?:0|[1-9]\d{0,9})"
FORMS = {
    "did": rf"did {NUMBER}(?: [^ ]+)+", "saw": rf"saw {NUMBER} [A-Za-z] (?:true|false)", "now": f"now {NUMBER}", "await": f"await {NUMBER} [A-Za-z]",
    "add": rf"add [^ ]+ [^ ]+ -?{NUMBER} (?:-|(?:!?[A-Za-z])+)", "remove": f"remove {NUMBER}", "change": f"change {NUMBER} -?{NUMBER}",
    "deadline": f"deadline {NUMBER}", "expect": f"expect {NUMBER} [^ ]+", "forgive": "forgive", "step": "step [^ ]+",
    "next": "next", "verdict": "verdict", "check": "check", "blame": "blame", "by": "by(?: [^ ]+)?", "until": "until", "late": "late [A-Za-z]",
    "raise": f"raise {NUMBER}", "least": "least", "cases": "cases", "cap": "cap [1-9][0-9]{0,6}", "mark": "mark", "back": "back", "try": "try .*",
}


# All tables.


def rows_of(plan, history, case):
    """Each way in which what is executed in a case can come, all constraints in force in it met."""
    names = [name for name in plan.labels if plan.is_executed(name, case)]
    if any(moment > plan.limit(name) for name, moment in history.done.items()):
        return
    free = [name for name in names if name not in history.done]
    force = [it for it in plan.constraints.values() if plan.is_in_force(it, case)]
    choices = [range(max(history.now, history.ready.get(name, 0)), plan.limit(name) + 1) for name in free]
    for moments in itertools.product(*choices):
        row = {**{name: history.done[name] for name in names if name in history.done}, **dict(zip(free, moments))}
        if all(row[it.target] - row[it.source] <= it.most for it in force):
            yield row


def is_known(plan, history, row, letter, moment):
    """Whether an outcome that was not told is known at a moment, in a case in which what is executed comes so."""
    observer = plan.observers[letter]
    if observer in history.done:
        return history.known_from(plan, letter) <= moment
    return observer in row and row[observer] + plan.reactions[letter] <= moment


def does_alike(plan, history, one, other):
    """Whether what is left comes in one case as in another, as long as nobody knows which of the two it is."""
    (case, row), (their_case, theirs) = one, other
    differ = [letter for letter in case if case[letter] != their_case[letter]]
    return all(theirs.get(name) == moment or any(is_known(plan, history, row, letter, moment) for letter in differ)
               for name, moment in row.items() if name not in history.done)


def some_table(plan, history):
    """Whether some table continues the history, of all that can be written down."""
    cases = list(plan.cases(history.told))
    rows = [[(case, row) for row in rows_of(plan, history, case)] for case in cases]

    def goes_on(chosen):
        if len(chosen) == len(rows):
            return True
        fits = (it for it in rows[len(chosen)] if all(does_alike(plan, history, it, his) and does_alike(plan, history, his, it) for his in chosen))
        return any(goes_on([*chosen, it]) for it in fits)

    return goes_on([])


# One answer after another.


def goes_on(plan, history, **changed):
    """Whether some table continues a history that is another one in this."""
    return least_table(plan, dataclasses.replace(history, **changed)) is not None


def greatest(moments, does):
    """The greatest of some moments that does; none where none does."""
    return max((moment for moment in moments if does(moment)), default=None)


def idle_until(plan, history):
    """Until when nothing need happen. All moments behind the deadline are alike."""
    does = [moment for moment in range(history.now, max(history.now, plan.deadline) + 2) if goes_on(plan, history, now=moment)]
    return GREATEST if goes_on(plan, history, now=NEVER) else max(does)


def late_until(plan, history, letter, soonest, latest):
    """Until when an outcome may be late. All moments behind the deadline are alike."""
    def does(moment):
        return goes_on(plan, history, expected={**history.expected, letter: moment})

    known = history.known_from(plan, letter)
    if goes_on(plan, history):
        soonest = min(max(history.now, known), latest)
    end = min(latest, max(soonest, plan.deadline + 1))
    found = greatest(range(soonest, end + 1), does)
    return latest if found == end else found


def raised(plan, history, number):
    """The least value of a limit above its own with which some table continues. All values from the deadline on are alike, and all
    those with which two moments would be farther apart than the deadline lets them."""
    own = plan.constraints[number]
    for most in range(max(own.most + 1, -plan.deadline - 1), plan.deadline + 1):
        if goes_on(dataclasses.replace(plan, constraints={**plan.constraints, number: own._replace(most=most)}), history):
            return most
    return None


def least_deadline(plan, history):
    """The least deadline by which some table continues. Where one does, one does in which each moment has a cause: what has happened,
    a constraint or a reaction, each of which is counted once in each case."""
    spans = [abs(it.most) for it in plan.constraints.values()] + list(plan.reactions.values())
    begun = [history.now, *history.done.values(), *history.expected.values(), *history.ready.values()]
    last = max(begun) + sum(spans) * sum(1 for _ in plan.cases(history.told)) + 1
    table = least_table(dataclasses.replace(plan, deadline=last), history)
    return None if table is None else next(n for n in range(last + 1) if goes_on(dataclasses.replace(plan, deadline=n), history))


def left_to_do(plan, history):
    """What is not done and is executed in some case that is left."""
    cases = list(plan.cases(history.told))
    return [name for name in plan.labels if name not in history.done and any(plan.is_executed(name, case) for case in cases)]


def broken(plan, history):
    """The constraints that what was done has broken, and that are in force in some case that is left."""
    done, cases = history.done, list(plan.cases(history.told))
    return [number for number, it in sorted(plan.constraints.items())
            if it.source in done and it.target in done and done[it.target] - done[it.source] > it.most
            and any(plan.is_in_force(it, case) for case in cases)]


def tree(plan, history):
    """How a plan goes on: what is next, done when it is named, and each awaited outcome told as true and as false."""
    if not left_to_do(plan, history):
        return ["done"]
    moment, names, letters = what_is_next(plan, history, least_table(plan, history))
    if letters:
        told = [dataclasses.replace(history, now=moment, told={**history.told, letters[0]: value}) for value in (True, False)]
        return [f"ask {letters[0]}", *tree(plan, told[0]), *tree(plan, told[1])]
    after = dataclasses.replace(history, now=moment, done={**history.done, **dict.fromkeys(names, moment)})
    return [f"at {moment} {' '.join(names)}", *tree(plan, after)]


def whole_tree(plan):
    """The tree of a plan of which nothing has happened, in which the origin is named first; or none."""
    if least_table(plan, History()) is None:
        return None
    first, *more = tree(plan, History())
    if first.startswith("at 0 "):
        return [f"at 0 Z {first.removeprefix('at 0 ')}", *more]
    return ["at 0 Z", first, *more]


class Asking(Course):
    """A session by the definitions: `told` answers a line with the lines of its answer."""

    def __init__(self, plan):
        self.plan, self.history, self.fresh = plan, History(), max(plan.constraints, default=-1) + 1
        self.marks, self.count = [], 0

    def told(self, line):
        self.count += 1
        return self.answer(line) or [f"refused line {self.count}"]

    def answer(self, line):
        """The answer to a line, or nothing where it is of no form."""
        verb, *words = line.split(" ")
        if verb not in FORMS or not re.fullmatch(FORMS[verb], line):
            return []
        answer = getattr(self, "to_" + verb)(*words)
        return [answer] if isinstance(answer, str) else answer

    # What happens.

    def fact(self, refusal, moment, **changed):
        """A fact that is refused, or recorded."""
        if refusal:
            return refusal
        self.history = dataclasses.replace(self.history, now=max(self.history.now, moment), **changed)
        return self.verdict()

    def to_did(self, at, *names):
        moment = int(at)
        return self.fact(self.why_not_done(moment, names), moment, done={**self.history.done, **dict.fromkeys(names, moment)})

    def to_saw(self, at, letter, value):
        return self.fact(self.why_not_seen(int(at), letter), int(at), told={**self.history.told, letter: value == "true"})

    def to_now(self, at):
        return self.fact(self.why_not_now(int(at)), int(at))

    def to_await(self, at, letter):
        return self.fact(self.why_not_awaited(int(at), letter), 0, expected={**self.history.expected, letter: int(at)})

    def to_expect(self, at, name):
        refusal = f"refused F2 {at}" if int(at) > GREATEST else self.why_no_wait(name)
        return self.fact(refusal, 0, ready={**self.history.ready, name: int(at)})

    # What is edited.

    def edit(self, answer, **changed):
        self.plan = dataclasses.replace(self.plan, **changed)
        return answer

    def to_add(self, source, target, most, label):
        unknown = next((name for name in (source, target) if name not in self.plan.labels), None)
        marks = {} if label == "-" else {letter: not sign for sign, letter in re.findall("(!?)([A-Za-z])", label)}
        nobody = next((letter for letter in sorted(marks) if letter not in self.plan.observers), None)
        if unknown or nobody:
            return f"refused S7 {unknown}" if unknown else f"refused S5 {nobody}"
        number, self.fresh = self.fresh, self.fresh + 1
        return self.edit(f"added {number}", constraints={**self.plan.constraints, number: Constraint(source, target, int(most), marks)})

    def to_remove(self, number):
        if int(number) not in self.plan.constraints:
            return f"refused S2 {number}"
        return self.edit(f"removed {number}", constraints=self.plan.without(int(number)).constraints)

    def to_change(self, number, most):
        if int(number) not in self.plan.constraints:
            return f"refused S2 {number}"
        changed = self.plan.constraints[int(number)]._replace(most=int(most))
        return self.edit(f"changed {number}", constraints={**self.plan.constraints, int(number): changed})

    def to_deadline(self, deadline):
        return [] if int(deadline) > GREATEST else self.edit(f"deadline {deadline}", deadline=int(deadline))

    def to_forgive(self):
        numbers = broken(self.plan, self.history)
        kept = {number: it for number, it in self.plan.constraints.items() if number not in numbers}
        return self.edit(" ".join(["forgiven", *map(str, numbers)]), constraints=kept)

    def to_step(self, name):
        if name in self.history.done:
            return f"refused F4 {name} {self.history.done[name]}"
        if name in self.plan.labels:
            return f"refused S8 {name}"
        return self.edit(f"step {name}", labels={**self.plan.labels, name: {}})

    # What is asked.

    def to_verdict(self):
        return self.verdict()

    to_check = to_verdict

    def to_cap(self, _):
        return self.verdict()

    def to_next(self):
        rows = least_table(self.plan, self.history)
        if rows is None:
            return "no"
        return told_next(None if self.history.is_over(self.plan) else what_is_next(self.plan, self.history, rows))

    def to_blame(self):
        return "yes" if self.verdict() == "yes" else " ".join(["blame", *map(str, blamed(self.plan, self.history))])

    def to_by(self, name=None):
        if name is None:
            names = left_to_do(self.plan, self.history) if self.verdict() == "yes" else []
            return [*(self.to_by(it) for it in names), "end"] if self.verdict() == "yes" else "no"
        waits = self.why_no_wait(name) or (None if self.verdict() == "yes" else "no")
        return waits or f"by {waits_until(self.plan, self.history, name)} {name}"

    def to_until(self):
        if self.verdict() == "no":
            return "no"
        return "done" if self.history.is_over(self.plan) else f"until {idle_until(self.plan, self.history)}"

    def to_late(self, letter):
        refusal = self.why_not_told(letter)
        if refusal:
            return refusal
        soonest = max(self.history.now, self.done_at(letter) + 1)
        found = late_until(self.plan, self.history, letter, soonest, self.latest(letter))
        return f"late {'none' if found is None else found} {letter}"

    def to_raise(self, number):
        if int(number) not in self.plan.constraints:
            return f"refused S2 {number}"
        if self.verdict() == "yes":
            return "yes"
        found = raised(self.plan, self.history, int(number))
        return f"raise {number} {'none' if found is None else found}"

    def to_least(self):
        found = least_deadline(self.plan, self.history)
        return f"least {'none' if found is None else found}"

    def to_cases(self):
        return "no" if self.verdict() == "no" else ["yes", *tree(self.plan, self.history), "end"]

    # What if.

    def state(self):
        return self.plan, self.history, self.fresh

    def to_mark(self):
        if len(self.marks) == MARKS:
            return "refused M1"
        self.marks.append(self.state())
        return f"mark {len(self.marks)}"

    def to_back(self):
        if not self.marks:
            return "refused M2"
        self.plan, self.history, self.fresh = self.marks.pop()
        return f"back {len(self.marks)}"

    def to_try(self, *words):
        """A line is answered in a copy: an edit that is not refused by the verdict after it."""
        other, line = copy.copy(self), " ".join(words)
        answer = [] if words[0] in ("try", "mark", "back") else other.answer(line)
        is_edit = words[0] in ("add", "remove", "change", "deadline", "forgive", "step")
        return [other.verdict()] if is_edit and answer and not answer[0].startswith("refused") else answer

    def end(self):
        """The last line, and the status behind it."""
        if self.history.is_over(self.plan):
            return "done", 1 if self.verdict() == "no" else 0
        return f"unfinished {self.history.now}", 8


# What is drawn.


class Lines:
    """Draws the next line of a session, near what is next in it, among the verbs that are to come."""

    def __init__(self, draw, asking, verbs):
        self.draw, self.asking, self.verbs = draw, asking, verbs

    def line(self):
        is_yes = self.asking.verdict() == "yes"
        weights = {"did": (36, 12), "saw": (28, 10), "now": (14, 4), "await": (10, 6), "expect": (8, 4), "add": (4, 1), "remove": (3, 25),
                   "change": (3, 20), "deadline": (3, 12), "forgive": (2, 20), "step": (8, 4), "mark": (5, 5), "back": (4, 10), "try": (8, 8),
                   "cap": (1, 1)}
        verbs = [verb for verb in weights if verb in self.verbs]
        verb = self.draw.choices(verbs, [weights[it][0 if is_yes else 1] for it in verbs])[0]
        return getattr(self, "say_" + verb)()

    def moment(self):
        return NEVER if self.draw.random() < 0.02 else max(0, self.asking.history.now + self.draw.randint(-2, 3))

    def name(self):
        """Who is not done, and sometimes somebody."""
        plan, done = self.asking.plan, self.asking.history.done
        left = [name for name in plan.labels if name not in done]
        return self.draw.choice(left if left and self.draw.random() < 0.9 else [*plan.labels, "Nobody"])

    def letter(self):
        awaited = list(self.asking.history.awaited(self.asking.plan))
        return self.draw.choice(awaited if awaited and self.draw.random() < 0.85 else sorted(self.asking.plan.observers))

    def number(self):
        return self.draw.randrange(self.asking.fresh + 1)

    def say_did(self):
        plan, history = self.asking.plan, self.asking.history
        rows = least_table(plan, history)
        if rows and not history.is_over(plan) and self.draw.random() < 0.7:
            moment, names, _ = what_is_next(plan, history, rows)
            if names:
                return f"did {max(0, moment + self.draw.choice((0, 0, 0, 1, -1)))} {' '.join(names)}"
        return f"did {self.moment()} {' '.join(self.name() for _ in range(self.draw.choice((1, 1, 1, 2))))}"

    def say_saw(self):
        return f"saw {self.moment()} {self.letter()} {self.draw.choice(('true', 'false'))}"

    def say_now(self):
        return f"now {self.moment()}"

    def say_await(self):
        return f"await {self.moment() + self.draw.choice((0, 0, 4))} {self.letter()}"

    def say_expect(self):
        return f"expect {self.moment() + self.draw.choice((0, 0, 4))} {self.name()}"

    def say_add(self):
        names, label = [*self.asking.plan.labels], drawn_label(self.draw, self.asking.plan.observers)
        return f"add {self.draw.choice(names)} {self.draw.choice(names)} {self.draw.randint(-3, 6)} {written(label) or '-'}"

    def say_remove(self):
        return f"remove {self.number()}"

    def say_change(self):
        return f"change {self.number()} {self.draw.randint(-5, 8)}"

    def say_deadline(self):
        return f"deadline {self.draw.randint(3, 15)}"

    def say_forgive(self):
        return "forgive"

    def say_step(self):
        return f"step {self.draw.choice(('New', 'More', 'Again', self.name()))}"

    def say_mark(self):
        return "mark"

    def say_back(self):
        return "back"

    def say_cap(self):
        return "cap 65536"

    def say_try(self):
        """A line that may not be tried comes too."""
        return f"try {self.line()}"


def questions(draw, asking, verbs):
    """All further questions that are to come, on one state."""
    plan = asking.plan
    asked = {"verdict": ["verdict"], "until": ["until"], "late": [f"late {letter}" for letter in sorted(plan.observers)], "by": ["by"],
             "raise": [f"raise {draw.randrange(asking.fresh + 1)}" for _ in range(2)], "least": ["least"], "cases": ["cases"]}
    return [line for verb, lines in asked.items() if verb in verbs for line in lines]


def session(draw, verbs):
    """A drawn session: its plan's document, each line with its answer, the end and how many states it came to, beside the first."""
    plan = drawn_plan(draw)
    while least_table(plan, History()) is None and draw.random() < 0.8:
        plan = drawn_plan(draw)
    asking, turns = Asking(plan), []
    lines, states = Lines(draw, asking, verbs), 1

    def say(line):
        turns.append((line, asking.told(line)))

    for line in questions(draw, asking, verbs):
        say(line)
    for _ in range(draw.randint(6, 12)):
        say(lines.line())
        if not turns[-1][1][0].startswith("refused") and not turns[-1][0].startswith("try "):
            states += 1
            for line in questions(draw, asking, verbs):
                say(line)
    return plan.document(), turns, asking.end(), states
