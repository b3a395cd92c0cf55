"""A second opinion on what `follow` answers, from the definitions alone: sessions of drawn facts and edits over small drawn plans.

It shares nothing with the program. After what has happened a plan can be carried out where some table continues the history: a
moment for each time-point that is executed, in each case that agrees with what was told. The least moments of such tables are grown
from now on, until each constraint in force is met, and who does not know which of two cases it is does the same in both. Where one
would be above its limit, or what is done would be later, no table continues the history. All else is asked of these moments: what is
next, until when a time-point can wait, by each moment in turn, and which constraints are to blame, left out one after another.
"""
import dataclasses
import itertools
import os
import random
import subprocess
import typing

from runs import BAD, GOOD, SECONDS, TOP, UNFINISHED, check, compact, run

JUDGE = os.path.join(TOP, "tools", "replay")

GREATEST = 1000000
NEVER = GREATEST + 1
MOST_OF_ORIGIN = 1000

SESSIONS = 40

# The first words of what is answered in the sessions, each of which is to come in some.
ANSWERS = ("accepted", "added", "blame", "by", "changed", "deadline", "done", "next", "no", "refused", "removed", "unfinished", "yes")
REFUSALS = ("F1", "F2", "F3", "F4", "F5", "F6", "F7", "S2")


def joined(labels):
    """Labels joined letter by letter. A letter with both signs has no value, so the label holds in no case."""
    values = {}
    for letter, value in (it for label in labels for it in label.items()):
        values[letter] = value if values.get(letter, value) == value else None
    return values


def holds(label, known):
    return all(letter in known and known[letter] == value for letter, value in label.items())


def written(label):
    return "".join(letter if value else "!" + letter for letter, value in sorted(label.items()))


class Constraint(typing.NamedTuple):
    source: str
    target: str
    most: int
    label: dict


@dataclasses.dataclass
class Plan:
    """A deadline, the labels of the time-points in their order, who observes each letter, its reaction, and the constraints by id."""
    deadline: int
    labels: dict
    observers: dict
    reactions: dict
    constraints: dict

    def limit(self, name):
        return 0 if name == "Z" else self.deadline

    def completed(self, label):
        """A label with those of the observers of its letters, until nothing is added."""
        more = joined([label, *(self.labels[self.observers[letter]] for letter in label)])
        return label if more == label else self.completed(more)

    def is_executed(self, name, known):
        return holds(self.completed(self.labels[name]), known)

    def is_in_force(self, constraint, case):
        return holds(self.completed(joined([constraint.label, self.labels[constraint.source], self.labels[constraint.target]])), case)

    def is_sound(self):
        """Whether each time-point is executed in some case, and none waits for what it observes itself."""
        full = {name: self.completed(label) for name, label in self.labels.items()}
        return not any(None in it.values() for it in full.values()) and not any(letter in full[name] for letter, name in self.observers.items())

    def cases(self, told):
        """The cases that agree with what was told, with an outcome for each letter."""
        for values in itertools.product((True, False), repeat=len(self.observers)):
            case = dict(zip(self.observers, values))
            if holds(told, case):
                yield case

    def without(self, number):
        return dataclasses.replace(self, constraints={it: constraint for it, constraint in self.constraints.items() if it != number})

    def document(self):
        letters = {name: letter for letter, name in self.observers.items()}
        nodes = [f"{name}:{letters.get(name, '')}:{self.reactions.get(letters.get(name), '')}:{written(label)}" for name, label in self.labels.items()]
        edges = [f"{it.source}->{it.target} {it.most} {written(it.label)}".rstrip() for it in self.constraints.values()]
        return compact(nodes, edges, f'<data key="Deadline">{self.deadline}</data>')


@dataclasses.dataclass
class History:
    """What has happened: now, the moments of what is done, the outcomes that were told, when others are expected, and before when
    what is not done cannot be done."""
    now: int = 0
    done: dict = dataclasses.field(default_factory=lambda: {"Z": 0})
    told: dict = dataclasses.field(default_factory=dict)
    expected: dict = dataclasses.field(default_factory=dict)
    ready: dict = dataclasses.field(default_factory=dict)

    def known_from(self, plan, letter):
        """From when on an outcome counts as known whose observer is done."""
        return self.expected.get(letter, self.done[plan.observers[letter]] + plan.reactions[letter])

    def awaited(self, plan):
        """The letters whose observers are done and whose outcomes were not told, each with the moment from which it is awaited."""
        letters = [letter for letter, name in sorted(plan.observers.items()) if name in self.done and letter not in self.told]
        return {letter: max(self.now, self.known_from(plan, letter)) for letter in letters}

    def is_over(self, plan):
        """Whether nothing is left: no outcome is awaited, and no time-point that is not done is executed in a case that is left."""
        left = plan.labels.keys() - self.done.keys()
        return not self.awaited(plan) and not any(plan.is_executed(name, case) for case in plan.cases(self.told) for name in left)


class NoTable(Exception):
    """No table continues the history."""


class Moments:
    """The moments of each case that agrees with a history, none of them later than in any table that continues it."""

    def __init__(self, plan, history, later):
        self.plan, self.history = plan, history
        self.cases = list(plan.cases(history.told))
        self.force = [[it for it in plan.constraints.values() if plan.is_in_force(it, case)] for case in self.cases]
        self.rows = [{name: history.done.get(name, 0) for name in plan.labels if plan.is_executed(name, case)} for case in self.cases]
        if any(moment > plan.limit(name) for name, moment in history.done.items()):
            raise NoTable
        for row in self.rows:
            for name in row.keys() - history.done.keys():
                self.rises(row, name, max(history.now, history.ready.get(name, 0), later.get(name, 0)))

    def rises(self, row, name, moment):
        """Raises a moment that is less; whether it was."""
        if moment <= row[name]:
            return False
        if name in self.history.done or moment > self.plan.limit(name):
            raise NoTable
        row[name] = moment
        return True

    def known_from(self, row, letter):
        """From when on an outcome that was not told is known in a case; never, where nobody observes it there."""
        observer = self.plan.observers[letter]
        if observer in self.history.done:
            return self.history.known_from(self.plan, letter)
        return row[observer] + self.plan.reactions[letter] if observer in row else NEVER

    def meet(self, row, force):
        """Raises what a constraint in force asks for; whether anything rose."""
        return any([self.rises(row, it.source, row[it.target] - it.most) for it in force])

    def wait(self, one, other):
        """Raises, in one case, who does not know yet that it is not another, in which it is later or not executed; whether any rose."""
        row, their = self.rows[one], self.rows[other]
        differ = [letter for letter, value in self.cases[one].items() if self.cases[other][letter] != value]
        known = min(self.known_from(row, letter) for letter in differ)
        return any([self.rises(row, name, min(known, their.get(name, NEVER))) for name in row.keys() - self.history.done.keys()])

    def grow(self):
        """Raises moments until nothing asks for more."""
        pairs, grew = list(itertools.permutations(range(len(self.rows)), 2)), True
        while grew:
            grew = any([self.meet(row, force) for row, force in zip(self.rows, self.force)] + [self.wait(*pair) for pair in pairs])


def least_table(plan, history, later=None):
    """The least moments in each case, where some table continues the history with these time-points at these moments or later; or none."""
    try:
        moments = Moments(plan, history, later or {})
        moments.grow()
    except NoTable:
        return None
    return moments.rows


def what_is_next(plan, history, rows):
    """The next moment, who is executed at it, and what is awaited at it."""
    awaited, named = history.awaited(plan), {}
    for name in plan.labels.keys() - history.done.keys():
        moments = {row.get(name) for row in rows}
        if len(moments) == 1 and None not in moments:
            named[name] = moments.pop()
    moment = min([*awaited.values(), *named.values()])
    return moment, [name for name in plan.labels if named.get(name) == moment], [letter for letter, since in awaited.items() if since == moment]


def waits_until(plan, history, name):
    return max(moment for moment in range(history.now, plan.deadline + 1) if least_table(plan, history, {name: moment}))


def blamed(plan, history):
    """The constraints that are left where each is left out, in ascending order, without which no table continues the history either."""
    for number in sorted(plan.constraints):
        if least_table(plan.without(number), history) is None:
            plan = plan.without(number)
    return sorted(plan.constraints)


class Course:
    """A plan and what has happened, and what of lines is refused then."""
    plan: Plan
    history: History

    def verdict(self):
        return "no" if least_table(self.plan, self.history) is None else "yes"

    def why_no_wait(self, name):
        """Why `by` is refused, or nothing."""
        if name not in self.plan.labels:
            return f"refused F3 {name}"
        if name in self.history.done:
            return f"refused F4 {name} {self.history.done[name]}"
        executed = any(self.plan.is_executed(name, case) for case in self.plan.cases(self.history.told))
        return None if executed else f"refused F5 {name}"

    def why_not_done(self, moment, names):
        if moment > GREATEST:
            return f"refused F2 {moment}"
        done = dict(self.history.done)
        for name in names:
            if name not in self.plan.labels:
                return f"refused F3 {name}"
        for name in names:
            if name in done:
                return f"refused F4 {name} {done[name]}"
            if not self.plan.is_executed(name, self.history.told):
                return f"refused F5 {name}"
            done[name] = moment
        return None

    def done_at(self, letter):
        """When the observer of a letter was done, or nothing."""
        return self.history.done.get(self.plan.observers.get(letter))

    def why_not_told(self, letter):
        if self.done_at(letter) is None:
            return f"refused F6 {letter}"
        told = self.history.told.get(letter)
        return None if told is None else f"refused F7 {letter} {str(told).lower()}"

    def why_not_seen(self, moment, letter):
        if moment > GREATEST:
            return f"refused F2 {moment}"
        return self.why_not_told(letter) or (f"refused F2 {moment}" if moment < self.done_at(letter) else None)

    def why_not_now(self, moment):
        if moment < self.history.now:
            return f"refused F1 {self.history.now}"
        return f"refused F2 {moment}" if moment > GREATEST else None

    def latest(self, letter):
        """Up to when an outcome may be expected."""
        return MOST_OF_ORIGIN if self.plan.observers[letter] == "Z" else GREATEST

    def why_not_awaited(self, moment, letter):
        refusal = self.why_not_told(letter)
        if refusal:
            return refusal
        fits = max(self.history.now, self.done_at(letter) + 1) <= moment <= self.latest(letter)
        return None if fits else f"refused F2 {moment}"


# What is drawn.


def drawn_label(draw, letters):
    return {letter: draw.random() < 0.5 for letter in letters if draw.random() < 0.35}


def drawn_plan(draw):
    """A plan of a few time-points, of which one to three observe, and in most plans some have labels."""
    letters = "pqr"[: draw.randint(1, 3)]
    names = ["Z"] + [f"X{number}" for number in range(1, len(letters) + draw.randint(2, 4))]
    observers = dict(zip(letters, draw.sample(names if draw.random() < 0.15 else names[1:], len(letters))))
    share = draw.choice((0, 0.4, 0.4))
    labels = {name: {draw.choice(letters): draw.random() < 0.5} if name != "Z" and draw.random() < share else {} for name in names}
    constraints = {}
    for number in range(draw.randint(2, 8)):
        most = draw.choice((draw.randint(-6, -1), draw.randint(0, 8)))
        constraints[number] = Constraint(*draw.sample(names, 2), most, drawn_label(draw, letters))
    plan = Plan(draw.randint(4, 14), labels, observers, {letter: draw.randint(1, 3) for letter in letters}, constraints)
    return plan if plan.is_sound() else drawn_plan(draw)


class Session(Course):
    """What is said over a drawn plan, each line with its answer by the definitions, but for loads, steps and what is left."""

    def __init__(self, number):
        self.draw = random.Random(number)
        self.plan, self.history = drawn_plan(self.draw), History()
        while self.verdict() == "no" and self.draw.random() < 0.9:
            self.plan = drawn_plan(self.draw)
        self.document, self.first, self.turns = self.plan.document(), self.verdict(), []
        self.soon, self.fresh = None, len(self.plan.constraints)
        self.ask()
        for _ in range(self.draw.randint(5, 11)):
            kinds = (self.did, self.saw, self.passed, self.awaits, self.adds, self.removes, self.changes, self.another_deadline)
            self.draw.choices(kinds, (36, 28, 14, 9, 4, 3, 3, 3) if self.verdict() == "yes" else (8, 8, 4, 4, 1, 35, 25, 15))[0]()

    def answer(self, line, wanted):
        self.turns.append((line, wanted))

    def ask(self):
        """All questions after a line that was accepted."""
        rows = least_table(self.plan, self.history)
        verdict = "no" if rows is None else "yes"
        self.soon = what_is_next(self.plan, self.history, rows) if rows and not self.history.is_over(self.plan) else None
        names = [it for it in self.plan.labels if it not in self.history.done]
        name = self.draw.choice(names if names and self.draw.random() < 0.85 else [*self.plan.labels, "Nobody"])
        self.answer("next", told_next(self.soon) if rows else verdict)
        self.answer(f"by {name}", self.why_no_wait(name) or (f"by {waits_until(self.plan, self.history, name)} {name}" if rows else verdict))
        self.answer("blame", verdict if rows else " ".join(["blame", *map(str, blamed(self.plan, self.history))]))
        self.answer("check", verdict)
        self.answer("rest", "</graphml>")

    # Facts.

    def moment(self):
        return NEVER if self.draw.random() < 0.03 else max(0, self.history.now + self.draw.randint(-2, 3))

    def letter(self):
        """A letter that is awaited, and sometimes another one."""
        awaited = list(self.history.awaited(self.plan))
        return self.draw.choice(awaited if awaited and self.draw.random() < 0.8 else sorted(self.plan.observers))

    def fact(self, line, refusal, moment, **changed):
        """A fact that is refused, or after which all questions are asked."""
        if refusal:
            return self.answer(line, refusal)
        self.history = dataclasses.replace(self.history, now=max(self.history.now, moment), **changed)
        self.answer(line, self.verdict())
        self.ask()

    def did(self):
        """Who is next at the next moment or near it, or somebody at some moment."""
        left = [name for name in self.plan.labels if name not in self.history.done] or ["Z"]
        moment, names = self.moment(), self.draw.choices([*left * 5, "Nobody"], k=self.draw.choice((1, 1, 1, 2)))
        if self.soon and self.soon[1] and self.draw.random() < 0.7:
            moment, names = max(0, self.soon[0] + self.draw.choice((0, 0, 0, 1, -1))), self.soon[1]
        refusal = self.why_not_done(moment, names)
        self.fact(f"did {moment} {' '.join(names)}", refusal, moment, done={**self.history.done, **dict.fromkeys(names, moment)})

    def saw(self):
        moment, letter, value = self.moment(), self.letter(), self.draw.random() < 0.5
        line = f"saw {moment} {letter} {str(value).lower()}"
        self.fact(line, self.why_not_seen(moment, letter), moment, told={**self.history.told, letter: value})

    def passed(self):
        moment = self.moment()
        self.fact(f"now {moment}", self.why_not_now(moment), moment)

    def awaits(self):
        moment, letter = self.moment(), self.letter()
        self.fact(f"await {moment} {letter}", self.why_not_awaited(moment, letter), 0, expected={**self.history.expected, letter: moment})

    # Edits.

    def edit(self, line, wanted, **changed):
        self.plan = dataclasses.replace(self.plan, **changed)
        self.answer(line, wanted)
        self.ask()

    def adds(self):
        source, target, most = self.draw.choice([*self.plan.labels]), self.draw.choice([*self.plan.labels]), self.draw.randint(-3, 6)
        label, number, self.fresh = drawn_label(self.draw, self.plan.observers), self.fresh, self.fresh + 1
        constraints = {**self.plan.constraints, number: Constraint(source, target, most, label)}
        self.edit(f"add {source} {target} {most} {written(label) or '-'}", f"added {number}", constraints=constraints)

    def removes(self):
        number = self.draw.randrange(self.fresh)
        if number not in self.plan.constraints:
            return self.answer(f"remove {number}", f"refused S2 {number}")
        self.edit(f"remove {number}", f"removed {number}", constraints=self.plan.without(number).constraints)

    def changes(self):
        number, most = self.draw.randrange(self.fresh + 1), self.draw.randint(-5, 8)
        if number not in self.plan.constraints:
            return self.answer(f"change {number} {most}", f"refused S2 {number}")
        changed = self.plan.constraints[number]._replace(most=most)
        self.edit(f"change {number} {most}", f"changed {number}", constraints={**self.plan.constraints, number: changed})

    def another_deadline(self):
        deadline = self.draw.randint(3, 15)
        self.edit(f"deadline {deadline}", f"deadline {deadline}", deadline=deadline)

    def end(self):
        """The status, and the last line alone."""
        if self.history.is_over(self.plan):
            return BAD if self.verdict() == "no" else GOOD, ["done"]
        return UNFINISHED, [f"unfinished {self.history.now}"]


def told_next(soon):
    if soon is None:
        return "done"
    moment, names, letters = soon
    return " ".join(["next", str(moment), *(["do", *names] if names else []), *(["wait", "".join(letters)] if letters else [])])


# What the program says.


def answers_of(lines, wrote):
    """The answers to lines, each with all its lines, where these were written; and then what was written behind them."""
    left = wrote.split("\n")[:-1]
    for line in lines:
        last = "</graphml>" if line == "rest" else "end" if line == "check" and left and left[0].startswith("no ") else None
        size = left.index(last) + 1 if last in left else 1
        yield left[:size]
        left = left[size:]
    yield left


def shown(line, answer):
    """What of an answer is compared: of a verdict its first word, and of what is left the last line."""
    said = answer[-1] if line == "rest" and answer else answer[0] if answer else ""
    return said.split(" ")[0] if said.startswith(("yes ", "no ")) else said


def judged(folder, document, steps):
    """What `tools/replay` says of steps over what was left."""
    words = [JUDGE, folder.put("left", "\n".join([*document, ""])), folder.put("steps", "\n".join([*steps, ""]))]
    done = subprocess.run(words, stdout=subprocess.PIPE, stderr=subprocess.PIPE, timeout=SECONDS, check=False)
    return (done.stdout + done.stderr).decode().rstrip("\n")


def compared(folder, number):
    """Compares all answers of a session, and has steps judged after each no that comes after a yes. What came."""
    session = Session(number)
    lines = [line for line, _ in session.turns]
    status, wrote = run(["follow", folder.put("drawn", session.document)], "".join(line + "\n" for line in lines))
    opening, first, *answers, end = answers_of(["follow", "now", *lines], wrote.decode())
    found = [shown(line, answer) for line, answer in zip(lines, answers)]
    wrong = [(line, said, wanted) for (line, wanted), said in zip(session.turns, found) if said != wanted]
    came = "yes"
    for asked, steps, left in zip(lines, answers, answers[1:]):
        before, came = came, shown(asked, steps) if asked == "check" else came
        if before == "yes" and came == "no":
            found.append(judged(folder, left, steps[:-1]))
            wrong += [("replay", found[-1], "accepted")] if found[-1] != "accepted" else []
    check(f"the opening and the end of drawn session {number}", (opening, shown("now", first), status, end), (["follow 1"], session.first, *session.end()))
    check(f"the answers of drawn session {number}", wrong, [])
    return [*found, *end]


def continuations(folder):
    """Sessions over drawn plans, each answer with a second opinion, and the steps of each first no by `tools/replay`."""
    came = [said.split(" ") for number in range(SESSIONS) for said in compared(folder, number)]
    check("answers of each kind to what is drawn", sorted({said[0] for said in came} - {"</graphml>"}), sorted(ANSWERS))
    check("refusals of each kind of what is drawn", sorted({said[1] for said in came if said[0] == "refused"}), sorted(REFUSALS))
