#!/usr/bin/env -S python3 -B
"""A second opinion on `check` and `run`, from the definitions of networks and strategies alone (docs/theorems.md): small drawn
plans are played in every way.

    deciders/games.py [PROGRAM [FIRST [COUNT]]]        PROGRAM, which has to be there, is crates/cstn/out/cstn where none is named

A plan is played tick by tick. At each tick some time-points are executed whose labels hold by what is known, and then each outcome
whose reaction is over comes out as it likes. A play is won where in the end all is executed that should be, and each constraint in
force is met. So a plan can be carried out where some choice at the start wins whatever comes, and a least moment is the least over all
choices that win. This knows no bound and no rule, and raises no moments: it goes back from the ends of all plays to their start.

The program is to say yes of just these plans, and to name each time-point at its least moment in each case. The greatest of these is
to be the least deadline, and the program is asked again with one tick less. Plans that observe nothing are drawn larger, and decided by
Bellman and Ford: yes where no loop of constraints, the limits among them, is negative. What is drawn goes by a number, from FIRST on.
checks/hostile has the first ones.
"""
import dataclasses
import itertools
import os
import random
import sys

sys.path.append(os.path.join(os.path.dirname(os.path.dirname(os.path.abspath(__file__))), "checks"))

from continuations import Constraint, Plan, drawn_label, joined
from runs import BAD, GOOD, NAME, carried_out, check, count, first_line, run

# How many plans checks/hostile plays, and how many are played where no number is said; of each five one more observes nothing.
FEW, MANY = 15, 150

# Of a drawn plan the time-points besides the origin, the letters, and the greatest deadline.
SIZES = ((2, 1, 6), (3, 1, 6), (3, 2, 6), (3, 3, 5), (4, 1, 6), (4, 2, 5), (4, 3, 5), (5, 1, 5), (5, 2, 4), (5, 3, 3))

NOT_YET = -1


class Game:
    """The plays of a plan. A position at a tick is the moments of the time-points so far, and the values of the letters that are known."""

    def __init__(self, plan):
        self.plan, self.names, self.letters = plan, list(plan.labels), sorted(plan.observers)
        self.observers = [self.names.index(plan.observers[letter]) for letter in self.letters]
        self.labels = [self.marks(label) for label in plan.labels.values()]
        self.constraints = [
            (self.names.index(it.source), self.names.index(it.target), it.most, self.marks(joined([it.label, plan.labels[it.source], plan.labels[it.target]])))
            for it in plan.constraints.values()]
        self.start = (NOT_YET,) * len(self.names), (None,) * len(self.letters)
        self.kept = {}

    def marks(self, label):
        """A label, completed, as the places of its letters with their values."""
        return [(self.letters.index(letter), value) for letter, value in self.plan.completed(label).items()]

    def winning(self, tick, position):
        """The positions after the choices at a tick that win whatever comes."""
        if (tick, position) not in self.kept:
            self.kept[tick, position] = [it for it in self.choices(tick, *position) if self.wins(tick, it)]
        return self.kept[tick, position]

    def choices(self, tick, moments, known):
        """The positions after each choice at a tick: the origin is executed at 0, and others where their labels hold by what is known."""
        free = [x for x, label in enumerate(self.labels) if moments[x] == NOT_YET and (x == 0) <= (tick == 0) and holds(label, known)]
        for size in range(len(free) + 1):
            for chosen in itertools.combinations(free, size):
                if tick > 0 or 0 in chosen:
                    yield tuple(tick if x in chosen else moment for x, moment in enumerate(moments)), known

    def wins(self, tick, position):
        """Whether, after the choice at a tick, some choices win whatever comes."""
        if self.is_lost(tick, *position):
            return False
        if tick == self.plan.deadline:
            return all(self.is_won(position[0], case) for case in self.cases(position[1]))
        return all(self.winning(tick + 1, it) for it in self.outcomes(tick + 1, *position))

    def outcomes(self, tick, moments, known):
        """The positions in which a tick begins: each letter that is known from then on has either value."""
        fresh = [moments[observer] != NOT_YET and value is None and moments[observer] + self.plan.reactions[letter] <= tick
                 for letter, observer, value in zip(self.letters, self.observers, known)]
        for values in itertools.product(*((True, False) if new else (value,) for new, value in zip(fresh, known))):
            yield moments, values

    def is_lost(self, tick, moments, known):
        """Whether a constraint is in force by what is known, and cannot be met any more; so no such position wins."""
        return any((moments[target] if moments[target] != NOT_YET else tick + 1) - moments[source] > most
                   for source, target, most, label in self.constraints if moments[source] != NOT_YET and holds(label, known))

    def cases(self, known):
        """The cases that agree with what is known."""
        return itertools.product(*((True, False) if value is None else (value,) for value in known))

    def is_won(self, moments, case):
        """Whether, in a case, all is executed that should be, and each constraint in force is met."""
        return (all(moments[x] != NOT_YET for x, label in enumerate(self.labels) if holds(label, case))
                and all(moments[target] - moments[source] <= most for source, target, most, label in self.constraints if holds(label, case)))

    def can_be_won(self):
        return bool(self.winning(0, self.start))

    def least_moments(self, case):
        """The least moment of each time-point that is executed in a case, over all plays of it that go on by choices that win."""
        positions, least = {self.start}, {}
        for tick in range(self.plan.deadline + 1):
            ends = {it for position in positions for it in self.winning(tick, position)}
            for moments, _ in ends:
                for name, moment in zip(self.names, moments):
                    if moment != NOT_YET:
                        least[name] = min(moment, least.get(name, moment))
            positions = {it for end in ends for it in self.outcomes(tick + 1, *end) if agrees(it[1], case)}
        return least


def holds(label, values):
    return all(value is not None and values[place] == value for place, value in label)


def agrees(known, case):
    return all(value is None or value == outcome for value, outcome in zip(known, case))


def played(plan):
    """Each case with its least moments, or none where no choice at the start wins whatever comes."""
    game = Game(plan)
    if not game.can_be_won():
        return None
    return [(dict(zip(game.letters, case)), game.least_moments(case)) for case in game.cases((None,) * len(game.letters))]


def by_ways(plan):
    """The one case with the greatest sums of ways from the origin, where no loop is negative, by Bellman and Ford; or none."""
    edges = [(it.target, it.source, -it.most) for it in plan.constraints.values()]
    edges += [edge for name in plan.labels for edge in (("Z", name, 0), (name, "Z", -plan.limit(name)))]
    greatest = {name: 0 for name in plan.labels}
    for _ in plan.labels:
        rose = False
        for start, end, most in edges:
            if greatest[start] + most > greatest[end]:
                greatest[end], rose = greatest[start] + most, True
        if not rose:
            return [({}, greatest)]
    return None


# What is drawn.


def drawn_plan(draw, sizes=SIZES):
    """A plan of a few time-points, in some of which the origin observes or time-points have labels; its bounds are near moments that are drawn."""
    size, observed, most = draw.choice(sizes)
    letters, names = "pqr"[:observed], ["Z"] + [f"X{number}" for number in range(1, size + 1)]
    observers = dict(zip(letters, draw.sample(names if draw.random() < 0.1 else names[1:], observed)))
    share = draw.choice((0, 0, 0.4))
    labels = {name: {draw.choice(letters): draw.random() < 0.5} if name != "Z" and draw.random() < share else {} for name in names}
    deadline, moments, constraints = draw.randint(most - 2, most), {}, {}
    for number in range(draw.randint(size, 2 * size + 2)):
        label, ends = drawn_label(draw, letters), draw.sample(names, 2)
        source, target = (moments.setdefault((end, *list(label.items())[:1]), draw.randint(0, deadline) if end != "Z" else 0) for end in ends)
        constraints[number] = Constraint(*ends, target - source + draw.choice((-1, 0, 0, 0, 1, 2)), label)
    plan = Plan(deadline, labels, observers, {letter: draw.choice((1, 1, 1, 2, 3)) for letter in letters}, constraints)
    return plan if plan.is_sound() else drawn_plan(draw, sizes)


def drawn_plain(draw):
    """A plan of 50 to 200 time-points that observes nothing; its bounds are near moments that are drawn."""
    size, deadline, constraints = draw.randint(50, 200), draw.randint(150, 400), {}
    names = ["Z"] + [f"X{number}" for number in range(1, size + 1)]
    places = [0] + [draw.randint(0, deadline) for _ in names[1:]]
    slack = draw.choice((0, 0, 1, 3))
    for number in range(draw.randint(2 * size, 4 * size)):
        source, target = draw.sample(range(size + 1), 2)
        constraints[number] = Constraint(names[source], names[target], places[target] - places[source] + draw.randint(-slack, 20), {})
    return Plan(deadline, {name: {} for name in names}, {}, {}, constraints)


# What is compared.


def compared(folder, name, plan, rows):
    """Compares the verdict, and, after yes, the moments at which the time-points are named in each case. What came."""
    path = folder.put("drawn", plan.document())
    status, wrote = run(["check", path])
    check(f"{name}: the verdict", (status, wrote[:3]), (BAD, b"no ") if rows is None else (GOOD, b"yes"))
    for case, least in rows or ():
        check(f"{name}: carried out where {case}", carried_out(["run", path], case, plan.observers, plan.reactions), least)
    return "no" if rows is None else "yes"


def decided(folder, name, plan, decide):
    """Compares a plan, and after yes its least deadline, and the same plan with one tick less than that. What came."""
    rows = decide(plan)
    came = [compared(folder, f"{name} by {plan.deadline}", plan, rows)]
    if rows is not None:
        greatest = max(moment for _, least in rows for moment in least.values())
        check(f"{name}: the least deadline", first_line(run(["tight", folder.at("drawn")])), (GOOD, f"least {greatest}".encode()))
        if greatest > 0:
            shorter = dataclasses.replace(plan, deadline=greatest - 1)
            came.append(compared(folder, f"{name} by {shorter.deadline}", shorter, decide(shorter)))
    return came


def drawn(folder, first, many):
    """Plays drawn plans, and goes the ways of plans that observe nothing, and says how often the answer was yes and no."""
    for kind, draw, decide, number in (("played", drawn_plan, played, many), ("plain", drawn_plain, by_ways, many // 5)):
        names = {f"{kind} plan {it}": draw(random.Random(it)) for it in range(first, first + number)}
        came = [said for name, plan in names.items() for said in decided(folder, name, plan, decide)]
        print(f"{NAME}: {kind} plans: {came.count('yes')} yes, {came.count('no')} no")


def games(folder):
    drawn(folder, 0, FEW)


def asked(folder):
    """What the words of the call ask for."""
    first, many = (int(sys.argv[place]) if len(sys.argv) > place else usual for place, usual in ((2, 0), (3, MANY)))
    drawn(folder, first, many)


if __name__ == "__main__":
    sys.exit(count([asked]))
