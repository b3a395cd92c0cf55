#!/usr/bin/env -S python3 -B
"""A second opinion on `check`, `tight` and `run` by a program of others: the solver z3, asked for a table as the definition has it.

    deciders/solver.py [PROGRAM [FIRST [COUNT]]]        PROGRAM, which has to be there, is crates/cstn/out/cstn where none is named

z3 is called by the name in Z3, or as `z3`. Of each drawn plan it gets the definition of a strategy in docs/theorems.md, written out as
SMT-LIB: a moment for each time-point that is executed, in each case, within its limit; each constraint in force is met; and where a
case agrees with another in what is known at a moment, who has that moment in the one has it in the other. It says whether there is such
a table, and, asked by halves, how early each moment may be in one. The program is compared as by deciders/games.py; so are the small
examples. No other script calls this one, since z3 need not be there.
"""
import itertools
import os
import random
import subprocess
import sys

sys.path.append(os.path.join(os.path.dirname(os.path.dirname(os.path.abspath(__file__))), "checks"))

from continuations import Constraint, Plan
from games import decided, drawn_plan
from runs import EXAMPLES, NAME, TOP, count
from tables import Tables

SOLVER = os.environ.get("Z3", "z3")
MANY = 100

# Of a drawn plan the time-points besides the origin, the letters, and the greatest deadline.
SIZES = ((4, 1, 30), (5, 2, 20), (6, 2, 30), (6, 3, 12), (7, 2, 40), (8, 1, 60), (8, 3, 20))

SMALL_EXAMPLES = ("business-process", "clinical-pathway", "insurance-claim", "mission", "stroke", "test-and-visit")


class Formula:
    """The definition of a strategy of a plan, with a number for each moment of a time-point that is executed in a case."""

    def __init__(self, plan):
        self.plan, self.cases = plan, list(plan.cases({}))
        self.rows = [[name for name in plan.labels if plan.is_executed(name, case)] for case in self.cases]
        self.places = {name: place for place, name in enumerate(plan.labels)}
        self.lines = [f"(declare-const {self.moment(row, name)} Int)" for row, names in enumerate(self.rows) for name in names]
        for row, names in enumerate(self.rows):
            self.lines += [f"(assert (<= 0 {self.moment(row, name)} {plan.limit(name)}))" for name in names]
            self.lines += [f"(assert (<= (- {self.moment(row, it.target)} {self.moment(row, it.source)}) {signed(it.most)}))"
                           for it in plan.constraints.values() if plan.is_in_force(it, self.cases[row])]
        for one, other in itertools.permutations(range(len(self.rows)), 2):
            self.lines += [f"(assert (=> (not (or false {self.told_apart(one, other, name)})) {self.same(one, other, name)}))" for name in self.rows[one]]

    def moment(self, row, name):
        return f"m{row}_{self.places[name]}"

    def told_apart(self, one, other, name):
        """That something is known at the moment of a time-point in one case by which the other differs."""
        letters = [it for it, value in self.cases[one].items() if self.cases[other][it] != value and self.plan.observers[it] in self.rows[one]]
        return " ".join(f"(<= (+ {self.moment(one, self.plan.observers[it])} {self.plan.reactions[it]}) {self.moment(one, name)})" for it in letters)

    def same(self, one, other, name):
        """That a time-point is executed in the other case too, at the same moment."""
        return f"(= {self.moment(other, name)} {self.moment(one, name)})" if name in self.rows[other] else "false"


def signed(value):
    return str(value) if value >= 0 else f"(- {-value})"


class Solver:
    """A session with z3 over a formula."""

    def __init__(self, lines):
        try:
            self.child = subprocess.Popen([SOLVER, "-in"], stdin=subprocess.PIPE, stdout=subprocess.PIPE, text=True)
        except OSError as error:
            sys.exit(f"solver.py: {SOLVER} cannot be started, so nothing was asked: {error}")
        self.child.stdin.write("\n".join([*lines, ""]))

    def may(self, more="true"):
        """Whether there is a table of which this holds too."""
        self.child.stdin.write(f"(push)(assert {more})(check-sat)(pop)\n")
        self.child.stdin.flush()
        return {"sat": True, "unsat": False}[self.child.stdout.readline().strip()]

    def least(self, moment, low, high):
        """The least value of a moment in any table, found by halves."""
        while low < high:
            middle = (low + high) // 2
            low, high = (low, middle) if self.may(f"(<= {moment} {middle})") else (middle + 1, high)
        return low

    def close(self):
        self.child.communicate()


def solved(plan):
    """Each case with its least moments, or none where there is no table."""
    formula = Formula(plan)
    solver, rows = Solver(formula.lines), None
    if solver.may():
        rows = [(case, {name: solver.least(formula.moment(row, name), 0, plan.limit(name)) for name in formula.rows[row]})
                for row, case in enumerate(formula.cases)]
    solver.close()
    return rows


def example(name):
    """An example as a plan with its least deadline, and with numbers for its names."""
    tables = Tables(os.path.join(TOP, "examples", name + ".graphml"))
    names = {it: "Z" if it == "Z" else f"X{place}" for place, it in enumerate(tables.names)}
    constraints = {number: Constraint(names[source], names[target], *more) for number, (source, target, *more) in enumerate(tables.constraints)}
    observers = {letter: names[it] for letter, it in tables.observers.items()}
    return Plan(EXAMPLES[name + ".graphml"][2], {names[it]: label for it, label in tables.labels.items()}, observers, tables.reactions, constraints)


def asked(folder):
    """What the words of the call ask for."""
    first, many = (int(sys.argv[place]) if len(sys.argv) > place else usual for place, usual in ((2, 0), (3, MANY)))
    plans = {f"example {name}": example(name) for name in SMALL_EXAMPLES}
    plans |= {f"solved plan {number}": drawn_plan(random.Random(number), SIZES) for number in range(first, first + many)}
    came = [said for name, plan in plans.items() for said in decided(folder, name, plan, solved)]
    print(f"{NAME}: solved plans: {came.count('yes')} yes, {came.count('no')} no")


if __name__ == "__main__":
    sys.exit(count([asked]))
